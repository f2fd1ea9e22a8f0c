//! What came up among repair passes, among the rows that they looked at, and among the passes made again or cut (request 2026-11).

use crate::shape::{LARGEST, ROW_CLEAN, ROW_DAMAGED, ROW_MENDED, ROW_NOT_PERMITTED, ROW_WORN};
use crate::tried::Kind;

/// A pass with its list and report, and the number that came of it.
#[derive(Default)]
pub struct Passed {
    pub number: u32,
    /// Whether all rows are lent.
    pub whole: bool,
    /// How many rows are listed, whether one is from 0xf40 up, whether one is listed twice running, and whether they fall.
    pub listed: usize,
    pub high: bool,
    pub equal: bool,
    pub falls: bool,
    /// How many entries the report has.
    pub room: usize,
    /// Whether a listed row is above 24 bits that Secure may write, or one that it may not, or a row that is not listed.
    pub large: bool,
    pub large_locked: bool,
    pub large_unlisted: bool,
    /// How many rows are mended, and how many may not be written.
    pub mended: usize,
    pub locked: usize,
    /// Whether a tally is held to 1,536, and whether one is brought down to it.
    pub held: bool,
    pub lowered: bool,
}

impl Passed {
    /// The number that is due: the first of the refusals that there is ground for.
    pub fn due(&self) -> u32 {
        let grounds = [
            (!self.whole, 1),
            (self.is_no_list(), 11),
            (self.room < self.listed, 12),
            (self.large, 3),
        ];
        let first = grounds.iter().find(|(ground, _)| *ground);
        first.map_or(0, |(_, number)| *number)
    }

    /// Whether the list is one that no pass takes.
    pub fn is_no_list(&self) -> bool {
        self.high || self.equal || self.falls
    }

    fn done(&self) -> bool {
        self.number == 0
    }
}

pub const PASSES: &[Kind<Passed>] = &[
    ("of no rows, then done", |it| it.done() && it.listed == 0),
    ("of one row that was mended", |it| {
        it.done() && it.listed == 1 && it.mended == 1
    }),
    ("of some rows of which none was mended", |it| {
        it.done() && it.listed > 1 && it.mended == 0
    }),
    ("of rows of which some were mended", |it| {
        it.done() && it.mended > 0 && it.mended < it.listed
    }),
    ("of more than 512 rows, then done", |it| it.done() && it.listed > 512),
    ("with some rows mended and some not permitted", |it| {
        it.done() && it.mended > 0 && it.locked > 0
    }),
    ("with a report as long as the list, then done", |it| {
        it.done() && it.listed > 0 && it.room == it.listed
    }),
    ("with a longer report, then done", |it| it.done() && it.room > it.listed),
    ("with an oversized entry that may not be written, then done", |it| {
        it.done() && it.large_locked
    }),
    ("with an oversized entry that is not listed, then done", |it| {
        it.done() && it.large_unlisted
    }),
    ("with a tally held to 1,536", |it| it.done() && it.held),
    ("with a tally brought down to 1,536", |it| it.done() && it.lowered),
    ("on another number of rows, then 1", |it| it.number == 1),
    ("with a row from 0xf40 up alone, then 11", |it| {
        it.number == 11 && it.high && !it.equal && !it.falls
    }),
    ("with a row listed twice alone, then 11", |it| {
        it.number == 11 && it.equal && !it.high && !it.falls
    }),
    ("with rows that fall alone, then 11", |it| {
        it.number == 11 && it.falls && !it.high && !it.equal
    }),
    ("with a bad list and a short report, then 11", |it| {
        it.number == 11 && it.room < it.listed
    }),
    ("with a report one entry short, then 12", |it| {
        it.number == 12 && it.room + 1 == it.listed
    }),
    ("with no report, then 12", |it| it.number == 12 && it.room == 0),
    ("with a short report and an oversized entry, then 12", |it| {
        it.number == 12 && it.large
    }),
    ("with an oversized entry, then 3", |it| it.number == 3),
];

/// A listed row: what it held, and its report entry.
pub struct Looked {
    pub entry: u32,
    pub told: u32,
}

impl Looked {
    /// Whether its entry has this kind, and its bits 23 and 22 are one of these.
    fn is(&self, kind: u32, flags: &[u32]) -> bool {
        self.told % 256 == kind && flags.contains(&(self.entry >> 22))
    }

    fn bit(&self) -> u32 {
        self.told / 256
    }
}

const PLAIN: &[u32] = &[0];
const INVERTED: &[u32] = &[3];
const DISAGREE: &[u32] = &[1, 2];

pub const LOOKED: &[Kind<Looked>] = &[
    ("plain and clean", |row| row.is(ROW_CLEAN, PLAIN)),
    ("inverted and clean", |row| row.is(ROW_CLEAN, INVERTED)),
    ("plain and mended in its data", |row| {
        row.is(ROW_MENDED, PLAIN) && row.bit() < 16
    }),
    ("plain and mended in its check bits", |row| {
        row.is(ROW_MENDED, PLAIN) && row.bit() >= 16
    }),
    ("inverted and mended in their data", |row| {
        row.is(ROW_MENDED, INVERTED) && row.bit() < 16
    }),
    ("inverted and mended in their check bits", |row| {
        row.is(ROW_MENDED, INVERTED) && row.bit() >= 16
    }),
    ("plain with a 1 too many", |row| row.is(ROW_WORN, PLAIN)),
    ("inverted with a 1 too many", |row| row.is(ROW_WORN, INVERTED)),
    ("worn in bit 22", |row| row.is(ROW_WORN, &[1])),
    ("worn in bit 23", |row| row.is(ROW_WORN, &[2])),
    ("damaged and plain", |row| row.is(ROW_DAMAGED, PLAIN)),
    ("damaged and inverted", |row| row.is(ROW_DAMAGED, INVERTED)),
    ("damaged, with flag bits that disagree", |row| {
        row.is(ROW_DAMAGED, DISAGREE)
    }),
    ("not permitted and blank", |row| {
        row.told == ROW_NOT_PERMITTED && row.entry == 0
    }),
    ("not permitted and burnt", |row| {
        row.told == ROW_NOT_PERMITTED && row.entry != 0 && row.entry <= LARGEST
    }),
    ("not permitted and oversized", |row| {
        row.told == ROW_NOT_PERMITTED && row.entry > LARGEST
    }),
];

/// A pass that was made again: how many rows the first one mended, and how many it mended itself; whether a reset came between, whether a key
/// was entered after it, and whether the first pass was cut.
pub struct Again {
    pub before: u32,
    pub after: u32,
    pub reset: bool,
    pub keyed: bool,
    pub cut: bool,
}

impl Again {
    fn cut_with(&self, before: bool, after: bool) -> bool {
        self.cut && (self.before > 0) == before && (self.after > 0) == after
    }
}

pub const AGAIN: &[Kind<Again>] = &[
    ("right after one that mended", |it| !it.reset && it.before > 0),
    ("after a reset with a key", |it| {
        it.reset && it.keyed && !it.cut && it.before > 0
    }),
    ("after a reset without one", |it| {
        it.reset && !it.keyed && !it.cut && it.before > 0
    }),
    ("after a cut before the first pulse", |it| it.cut_with(false, true)),
    ("after a cut part way", |it| it.cut_with(true, true)),
    ("after a cut past the last pulse", |it| it.cut_with(true, false)),
];
