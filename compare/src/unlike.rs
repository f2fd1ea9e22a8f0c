//! In what two chips that agree differ all the same: what a plug-in is not to learn. Each kind is counted, so that none stays untried.

use crate::agreement::{unlike_rows, Side};
use crate::keys::{hidden, key_level, matches};
use crate::shape::{Key, State, LARGEST, PAGES};

#[derive(Clone, Copy, Debug, PartialEq, Eq)]
pub enum Unlike {
    HiddenRow,
    LockedRow,
    Oversized,
    KeyWords,
    Whole,
    NoKey,
    Entered,
    EnteredMatches,
    Level1,
    Tally,
    Level,
    Index,
}

/// Each kind, and what it is called.
pub const KINDS: [(Unlike, &str); 12] = [
    (Unlike::HiddenRow, "a hidden key row"),
    (Unlike::LockedRow, "a locked row"),
    (Unlike::Oversized, "an oversized entry"),
    (Unlike::KeyWords, "key words"),
    (Unlike::Whole, "whole"),
    (Unlike::NoKey, "a no-key state"),
    (Unlike::Entered, "the entered key"),
    (Unlike::EnteredMatches, "an entered key that matches on both"),
    (Unlike::Level1, "what a key level of 1 comes from"),
    (Unlike::Tally, "a tally"),
    (Unlike::Level, "the number of a level that counts as 2"),
    (Unlike::Index, "the number of a key index that counts as 7"),
];

/// Whether a row that differs is oversized on one of the chips.
pub fn oversized(one: Side, other: Side, row: u32) -> bool {
    one.rows[row as usize].max(other.rows[row as usize]) > LARGEST
}

/// Whether a page's key level of 1 comes from a matching read key on one of the chips, and from the no-key state on the other.
pub fn other_ground(one: &State, other: &State, page: usize) -> bool {
    let by_read_key = |state: &State| key_level(None, state, page) == 1 && matches(None, state, state.readkey[page]);
    by_read_key(one) != by_read_key(other)
}

impl Unlike {
    /// Whether two chips that agree differ in this.
    pub fn shows(self, one: Side, other: Side) -> bool {
        let mut rows = unlike_rows(one, other);
        let keys = |differs: fn(&(&Key, &Key)) -> bool| {
            one.state.keys.iter().zip(&other.state.keys).any(|pair| differs(&pair))
        };
        let (a, b) = (one.state, other.state);
        match self {
            Unlike::HiddenRow => rows.any(|row| hidden(a, row)),
            Unlike::LockedRow => rows.any(|row| !hidden(a, row)),
            Unlike::Oversized => rows.any(|row| oversized(one, other, row)),
            Unlike::KeyWords => keys(|(one, other)| one.words != other.words),
            Unlike::Whole => keys(|(one, other)| one.whole != other.whole),
            Unlike::NoKey => a.nokey != b.nokey,
            Unlike::Entered => a.entered != b.entered,
            Unlike::EnteredMatches => {
                let on_both = |key| matches(None, a, key) && matches(None, b, key);
                a.entered != b.entered && (1..=6).any(on_both)
            }
            Unlike::Level1 => (0..PAGES).any(|page| other_ground(a, b, page)),
            Unlike::Tally => a.tallies != b.tallies,
            Unlike::Level => (a.secure, a.nonsecure, a.bootloader) != (b.secure, b.nonsecure, b.bootloader),
            Unlike::Index => (a.writekey, a.readkey) != (b.writekey, b.readkey),
        }
    }
}

/// How many pairs there were, and how many of them differed in each kind.
#[derive(Default)]
pub struct Seen {
    pairs: u64,
    of_kind: [u64; KINDS.len()],
}

impl Seen {
    pub fn note(&mut self, one: Side, other: Side) {
        self.pairs += 1;
        for (count, (kind, _)) in self.of_kind.iter_mut().zip(KINDS) {
            *count += u64::from(kind.shows(one, other));
        }
    }

    /// The first kind that no pair differed in.
    pub fn missing(&self) -> Option<&'static str> {
        let never = self.of_kind.iter().position(|count| *count == 0)?;
        Some(KINDS[never].1)
    }

    pub fn print(&self) {
        println!("{} pairs of chips that agree, of which so many differ in", self.pairs);
        for (count, (_, name)) in self.of_kind.iter().zip(KINDS) {
            println!("{count:>8} {name}");
        }
    }
}
