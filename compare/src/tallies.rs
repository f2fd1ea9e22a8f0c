//! The tallies: how many bits of each page are burnt, filled at reset and kept by all that burns (request 2026-07).

use crate::fault::Fault;
use crate::locks::owner;
use crate::row::newly_set;
use crate::shape::{State, LOCK_ROWS, PAGES, PAGE_BITS, PAGE_ROWS};

/// A row that a call names, by being written or by standing in its job: what it held, what it holds now, and what it would hold
/// if nothing cut the call short.
pub struct Named {
    pub row: u32,
    pub old: u32,
    pub new: u32,
    pub whole: u32,
}

impl Named {
    fn cut(&self) -> bool {
        self.new != self.whole
    }

    /// The bits newly set in it.
    fn bits(&self, fault: Option<Fault>) -> u32 {
        match fault {
            Some(Fault::CutLeftOut) if self.cut() => 0,
            Some(Fault::CutCountsWhole) => newly_set(self.old, self.whole),
            Some(Fault::OldBitsCount) => newly_set(0, self.new),
            _ => newly_set(self.old, self.new),
        }
    }
}

/// The page of a row: by row number for the lock rows too, and not by lock word.
fn page_of(fault: Option<Fault>, row: u32) -> usize {
    match fault {
        Some(Fault::TallyByLockWord) => owner(row),
        _ => (row / PAGE_ROWS as u32) as usize,
    }
}

/// The set bits of each page's rows.
pub fn filled(fault: Option<Fault>, rows: &[u32]) -> [u16; PAGES] {
    let counted = match fault {
        Some(Fault::RowTooFew) => PAGE_ROWS - 1,
        _ => PAGE_ROWS,
    };
    let mut tallies = [0; PAGES];
    for (tally, page) in tallies.iter_mut().zip(rows.chunks(PAGE_ROWS)) {
        *tally = page[..counted].iter().map(|row| row.count_ones() as u16).sum();
    }
    if fault == Some(Fault::ResetByLockWord) {
        (tallies[62], tallies[63]) = (0, 0);
        for (tally, word) in tallies.iter_mut().zip(rows[LOCK_ROWS as usize..].chunks(2)) {
            *tally += word.iter().map(|row| row.count_ones() as u16).sum::<u16>();
        }
    }
    tallies
}

/// The lesser of 1,536 and old plus new bits.
fn raised(fault: Option<Fault>, old: u16, new: u32) -> u16 {
    let sum = match fault {
        Some(Fault::SumWraps) => u32::from(old.wrapping_add(new as u16)),
        Some(Fault::NoLimit) => return old.wrapping_add(new as u16),
        Some(Fault::NamedAbove) if new == 0 => return old,
        _ => u32::from(old) + new,
    };
    sum.min(PAGE_BITS) as u16
}

/// What a done call leaves: each page that has a named row at what its new bits raise it to, and all others as they were.
pub fn kept(fault: Option<Fault>, before: &State, named: &[Named]) -> State {
    let named = match fault {
        Some(Fault::CutUnnamed) => &named[..named.iter().position(Named::cut).map_or(named.len(), |cut| cut + 1)],
        _ => named,
    };
    let all: u32 = named.iter().map(|row| row.bits(fault)).sum();
    let first = named.first().map(|first| page_of(fault, first.row));
    let mut state = *before;
    for (page, tally) in state.tallies.iter_mut().enumerate() {
        let here: Vec<&Named> = named.iter().filter(|row| page_of(fault, row.row) == page).collect();
        let new = match fault {
            Some(Fault::JobOnFirstPage) if first == Some(page) => all,
            Some(Fault::JobOnFirstPage) => 0,
            _ => here.iter().map(|row| row.bits(fault)).sum(),
        };
        if !here.is_empty() || fault == Some(Fault::OthersLowered) {
            *tally = raised(fault, *tally, new);
        }
    }
    state
}
