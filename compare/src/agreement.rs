//! When two chips agree: all that a Non-secure plug-in knows is the same on both (request 2026-10). Written from the request's words
//! with the sound rules alone. Where two do not agree, it says in which clause.

use std::fmt;
use std::iter::once;

use crate::keys::{hidden, index, key_level};
use crate::locks::{key_page, level};
use crate::permission::may_read;
use crate::shape::{State, DOMAINS, LOCK_ROWS, NONSECURE, PAGES, ROWS};

/// A chip by what it holds: the rows that are lent, and the state.
#[derive(Clone, Copy)]
pub struct Side<'a> {
    pub rows: &'a [u32],
    pub state: &'a State,
}

/// Something that is the same on two chips that agree.
#[derive(Clone, Copy, Debug, PartialEq, Eq)]
pub enum Clause {
    RowsLent,
    Level { domain: u32, page: usize },
    WriteIndex { page: usize },
    ReadIndex { page: usize },
    KeyLevel { page: usize },
    ValidFlag { key: usize },
    LockRowKeyLevel { row: u32 },
    Entry { row: u32 },
}

impl Clause {
    /// What a chip has there, as it counts.
    pub fn of(self, chip: Side) -> u32 {
        let Side { rows, state } = chip;
        match self {
            Clause::RowsLent => rows.len() as u32,
            Clause::Level { domain, page } => level(None, state, domain, page),
            Clause::WriteIndex { page } => index(None, state.writekey[page]).into(),
            Clause::ReadIndex { page } => index(None, state.readkey[page]).into(),
            Clause::KeyLevel { page } => key_level(None, state, page),
            Clause::ValidFlag { key } => state.keys[key - 1].valid.into(),
            Clause::LockRowKeyLevel { row } => key_level(None, state, key_page(None, row)),
            Clause::Entry { row } => rows[row as usize],
        }
    }

    /// The same for a report.
    pub fn shown(self, chip: Side) -> String {
        match self {
            Clause::Entry { .. } => format!("{:#08x}", self.of(chip)),
            _ => self.of(chip).to_string(),
        }
    }
}

/// Whether a plug-in knows the row's entry: every lock row, and each row that Non-secure may read and that is no hidden key row.
pub fn known(state: &State, row: u32) -> bool {
    row >= LOCK_ROWS || may_read(None, state, NONSECURE, row) && !hidden(state, row)
}

/// Every clause but the entries.
fn of_lengths_and_states() -> impl Iterator<Item = Clause> {
    let of_page = |page| {
        let levels = (0..DOMAINS).map(move |domain| Clause::Level { domain, page });
        levels.chain([
            Clause::WriteIndex { page },
            Clause::ReadIndex { page },
            Clause::KeyLevel { page },
        ])
    };
    let flags = (1..=6).map(|key| Clause::ValidFlag { key });
    let lock_rows = (LOCK_ROWS..ROWS as u32).map(|row| Clause::LockRowKeyLevel { row });
    let pages = (0..PAGES).flat_map(of_page);
    once(Clause::RowsLent).chain(pages).chain(flags).chain(lock_rows)
}

/// The rows whose entries differ, of those that both chips lend.
pub fn unlike_rows<'a>(one: Side<'a>, other: Side<'a>) -> impl Iterator<Item = u32> + 'a {
    let entries = one.rows.iter().zip(other.rows).take(ROWS);
    let unlike = entries.zip(0..).filter(|((one, other), _)| one != other);
    unlike.map(|(_, row)| row)
}

/// The clauses in which two chips do not agree: none, where they do. Which entries a plug-in knows is told by the first chip's
/// state: where no clause before differs, the second's tells the same. Of rows that only one of them lends, the lengths tell.
pub fn disagreements(one: Side, other: Side) -> Vec<Clause> {
    let differs = |clause: &Clause| clause.of(one) != clause.of(other);
    let known_rows = unlike_rows(one, other).filter(|row| known(one.state, *row));
    let entries = known_rows.map(|row| Clause::Entry { row });
    of_lengths_and_states().filter(differs).chain(entries).collect()
}

impl fmt::Display for Clause {
    fn fmt(&self, out: &mut fmt::Formatter) -> fmt::Result {
        match self {
            Clause::RowsLent => write!(out, "rows lent"),
            Clause::Level { domain, page } => {
                let name = ["Secure", "Non-secure", "bootloader"][*domain as usize];
                write!(out, "{name} level of page {page}")
            }
            Clause::WriteIndex { page } => write!(out, "write key index of page {page}"),
            Clause::ReadIndex { page } => write!(out, "read key index of page {page}"),
            Clause::KeyLevel { page } => write!(out, "key level of page {page}"),
            Clause::ValidFlag { key } => write!(out, "valid flag of key {key}"),
            Clause::LockRowKeyLevel { row } => write!(out, "key level of lock row {row:#05x}"),
            Clause::Entry { row } if *row >= LOCK_ROWS => write!(out, "entry of lock row {row:#05x}"),
            Clause::Entry { row } => write!(out, "entry of row {row:#05x}"),
        }
    }
}
