//! What came up among cards that were read, cards that were asked for, and their jobs as they were run (request 2026-12).

use crate::shape::{Answer, Card, CLEAN, FLAG_WORN, INVERTED, REPAIRED};
use crate::tried::Kind;

/// A card as it was read, and what an ECC read says of each of its six rows.
pub struct Shown {
    pub card: Card,
    pub reads: [Answer; 6],
}

impl Shown {
    fn of_version(&self, version: u32) -> bool {
        self.card.number == 0 && self.card.version == version
    }

    /// Whether one of its rows, that is looked at, was read like this.
    fn has(&self, like: fn(&Answer) -> bool) -> bool {
        let rows = if self.card.version == 2 { 6 } else { 5 };
        self.card.number == 0 && self.reads[..rows].iter().any(like)
    }

    /// Whether this number came, and the row at this place gave it.
    fn of_row(&self, number: u32, place: usize) -> bool {
        let first = self.reads.iter().position(|read| read.number != 0);
        self.card.number == number && first == Some(place)
    }

    /// Whether this number came, while a row behind the one that gave it gives another.
    fn before(&self, number: u32, later: u32) -> bool {
        let first = self.reads[..5].iter().position(|read| read.number == number);
        let behind = |place: usize| self.reads[place + 1..5].iter().any(|read| read.number == later);
        self.card.number == number && first.is_some_and(behind)
    }

    /// Whether this number came, and what the row at this place holds is like this.
    fn held(&self, number: u32, place: usize, like: fn(u32) -> bool) -> bool {
        self.card.number == number && self.reads[place].number == 0 && like(self.reads[place].value)
    }

    /// Whether width or height is out of its range.
    fn is_too_large(&self) -> bool {
        !(1..=320).contains(&self.reads[3].value) || !(1..=240).contains(&self.reads[4].value)
    }
}

pub const SHOWN: &[Kind<Shown>] = &[
    ("of version 1", |it| it.of_version(1)),
    ("of version 2", |it| it.of_version(2)),
    ("of version 1 with another number in row 0x0c5", |it| {
        it.of_version(1) && it.reads[5].number == 0 && it.reads[5].value != it.card.line
    }),
    ("of version 1 with a damaged row 0x0c5", |it| {
        it.of_version(1) && it.reads[5].number == 8
    }),
    ("of version 1 with an oversized row 0x0c5", |it| {
        it.of_version(1) && it.reads[5].number == 3
    }),
    ("320 by 240", |it| it.card.width == 320 && it.card.height == 240),
    ("1 by 1", |it| it.card.width == 1 && it.card.height == 1),
    ("of version 2 with a line that is their width", |it| {
        it.of_version(2) && it.card.line == it.card.width
    }),
    ("with a line of 1,024", |it| it.card.line == 1024),
    ("with a repaired bit", |it| it.has(|read| read.condition == REPAIRED)),
    ("with a worn flag bit", |it| it.has(|read| read.condition == FLAG_WORN)),
    ("with an inverted row", |it| {
        it.has(|read| read.condition == CLEAN && read.polarity == INVERTED)
    }),
    ("1", |it| it.card.number == 1),
    ("7", |it| it.card.number == 7),
    ("3 by the first row", |it| it.of_row(3, 0)),
    ("3 by the fifth row", |it| it.of_row(3, 4)),
    ("3 by the sixth row", |it| it.of_row(3, 5)),
    ("8 by the first row", |it| it.of_row(8, 0)),
    ("8 by the fifth row", |it| it.of_row(8, 4)),
    ("8 by the sixth row", |it| it.of_row(8, 5)),
    ("8 before a later row's 3", |it| it.before(8, 3)),
    ("3 before a later row's 8", |it| it.before(3, 8)),
    ("8 though the mark is wrong", |it| {
        it.held(8, 0, |mark| mark != 0x5053) && it.reads[1].number == 0
    }),
    ("15 by the first row alone", |it| {
        it.held(15, 0, |mark| mark != 0x5053) && it.reads[1].value == 0x4c
    }),
    ("15 by the second row alone", |it| {
        it.held(15, 1, |mark| mark != 0x4c) && it.reads[0].value == 0x5053
    }),
    ("15 though the version is wrong too", |it| {
        it.held(15, 2, |version| ![1, 2].contains(&version))
    }),
    ("15 though row 0x0c5 of version 2 is no number", |it| {
        it.held(15, 2, |version| version == 2) && it.reads[5].number != 0
    }),
    ("16 by version 0", |it| it.held(16, 2, |version| version == 0)),
    ("16 by version 3", |it| it.held(16, 2, |version| version == 3)),
    ("16 though a size is wrong too", |it| {
        it.card.number == 16 && it.is_too_large()
    }),
    ("8 or 3 by the sixth row, though a size is wrong too", |it| {
        (it.of_row(8, 5) || it.of_row(3, 5)) && it.is_too_large()
    }),
    ("17 by a width of 0", |it| it.held(17, 3, |width| width == 0)),
    ("17 by a width of 321", |it| it.held(17, 3, |width| width == 321)),
    ("17 by a width with bit 15", |it| {
        it.held(17, 3, |width| width >= 0x8000)
    }),
    ("17 by a height of 0", |it| it.held(17, 4, |height| height == 0)),
    ("17 by a height of 241", |it| it.held(17, 4, |height| height == 241)),
    ("17 by a line below the width", |it| {
        it.card.number == 17 && !it.is_too_large() && it.reads[5].value < it.reads[3].value
    }),
    ("17 by a line of 1,025", |it| {
        !it.is_too_large() && it.held(17, 5, |line| line == 1025)
    }),
];

/// A card that was asked for, the bytes of its area, and the number that came.
pub struct Asked {
    pub card: Card,
    pub room: usize,
    pub number: u32,
}

impl Asked {
    fn of_version(&self, version: u32) -> bool {
        self.number == 0 && self.card.version == version
    }

    /// Whether this number came, and the sizes are good.
    fn sized(&self, number: u32, good: bool) -> bool {
        let sides = (1..=320).contains(&self.card.width) && (1..=240).contains(&self.card.height);
        let line = self.card.version != 2 || (self.card.width..=1024).contains(&self.card.line);
        self.number == number && (sides && line) == good
    }
}

pub const ASKED: &[Kind<Asked>] = &[
    ("of version 1", |it| it.of_version(1)),
    ("of version 2", |it| it.of_version(2)),
    ("of version 1 with a line that no card has", |it| {
        it.of_version(1) && it.card.line > 1024
    }),
    ("of version 1 in 37 bytes", |it| it.of_version(1) && it.room == 37),
    ("of version 2 in 43 bytes", |it| it.of_version(2) && it.room == 43),
    ("in a longer area", |it| it.number == 0 && it.room > 43),
    ("of an unknown version, then 16", |it| it.sized(16, true)),
    ("of an unknown version with a wrong size, then 16", |it| {
        it.sized(16, false)
    }),
    ("of a version above 65,535, then 16", |it| {
        it.number == 16 && it.card.version > 0xffff
    }),
    ("wrong in width or height, then 17", |it| {
        it.sized(17, false) && it.card.version == 1
    }),
    ("with a width above 65,535, then 17", |it| {
        it.number == 17 && it.card.width > 0xffff
    }),
    ("with a line above 1,024 alone, then 17", |it| {
        it.number == 17 && it.card.width <= 320 && it.card.height <= 240 && it.card.line > 1024
    }),
    ("with a line below the width, then 17", |it| {
        it.number == 17 && it.card.version == 2 && it.card.line < it.card.width
    }),
    ("wrong in a size with a short area, then 17", |it| {
        it.number == 17 && it.room < 37
    }),
    ("of version 1 in 36 bytes, then 12", |it| {
        it.number == 12 && it.card.version == 1 && it.room == 36
    }),
    ("of version 2 in 37 to 42 bytes, then 12", |it| {
        it.number == 12 && it.card.version == 2 && it.room >= 37
    }),
    ("in no area, then 12", |it| it.number == 12 && it.room == 0),
];

/// A card's job that was run to its end, or refused.
pub struct Burnt {
    pub version: u32,
    pub number: u32,
    /// How many pulses it took, those before a cut too, and whether something was burnt in its rows before.
    pub pulses: u32,
    pub over: bool,
    /// Whether it was cut, and whether a key was entered.
    pub cut: bool,
    pub keyed: bool,
    /// What came of the card when it was read afterwards.
    pub read: u32,
}

impl Burnt {
    fn read_back(&self) -> bool {
        self.number == 0 && self.read == 0
    }
}

pub const BURNT: &[Kind<Burnt>] = &[
    ("of version 1, read back", |it| it.read_back() && it.version == 1),
    ("of version 2, read back", |it| it.read_back() && it.version == 2),
    ("on blank rows, read back", |it| it.read_back() && !it.over),
    ("over burnt rows, read back", |it| {
        it.read_back() && it.over && it.pulses > 0
    }),
    ("burnt again the same, read back", |it| it.read_back() && it.pulses == 0),
    ("cut and run again, read back", |it| it.read_back() && it.cut),
    ("with a key, read back", |it| it.read_back() && it.keyed),
    ("done, where Non-secure may not read", |it| {
        it.number == 0 && it.read == 7
    }),
    ("refused with 7", |it| it.number == 7),
    ("refused with 9", |it| it.number == 9),
];
