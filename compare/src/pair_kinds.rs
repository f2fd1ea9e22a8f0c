//! What came up among pairs of images, and among the jobs made of them that were run (request 2026-04).

use crate::tried::Kind;

/// A pair of images with an output, and the number that came of it. Where the images have not their length the rest says nothing.
pub struct Made {
    pub number: u32,
    /// Whether each image has its length, and whether the one array is lent for both.
    pub whole: [bool; 2],
    pub same: bool,
    /// Whether an entry of each is above 24 bits.
    pub large: [bool; 2],
    /// How many rows differ below 0xf40 and from there up, and how many bits.
    pub apart: usize,
    pub high: usize,
    pub bits: u32,
    /// How many rows lose a bit, below 0xf40 and from there up, and how many of them gain another.
    pub lost: usize,
    pub high_lost: usize,
    pub exchanged: usize,
    /// How many bytes the output has, and how many the job needs.
    pub room: usize,
    pub need: usize,
}

impl Made {
    /// The number that is due: the first of the refusals that there is ground for.
    pub fn due(&self) -> u32 {
        let grounds = [
            (self.whole != [true; 2], 1),
            (self.large != [false; 2], 3),
            (self.lost + self.high_lost > 0, 13),
            (self.high > 0, 11),
            (self.apart > 512, 14),
            (self.room < self.need, 12),
        ];
        grounds
            .iter()
            .find(|(ground, _)| *ground)
            .map_or(0, |(_, number)| *number)
    }

    fn done(&self) -> bool {
        self.number == 0
    }
}

pub const PAIRS: &[Kind<Made>] = &[
    ("equal, then done", |it| it.done() && it.apart == 0),
    ("one array lent for both, then done", |it| it.done() && it.same),
    ("one bit apart, then done", |it| it.done() && it.bits == 1),
    ("burnt further in some rows, then done", |it| it.done() && it.apart > 1),
    ("511 rows apart, then done", |it| it.done() && it.apart == 511),
    ("512 rows apart, then done", |it| it.done() && it.apart == 512),
    ("with room to the byte, then done", |it| it.done() && it.room == it.need),
    ("with room to spare, then done", |it| it.done() && it.room > it.need),
    ("of another length, the present one, then 1", |it| {
        it.number == 1 && it.whole == [false, true]
    }),
    ("of another length, the wanted one, then 1", |it| {
        it.number == 1 && it.whole == [true, false]
    }),
    ("with an entry too large in the present one, then 3", |it| {
        it.number == 3 && it.large == [true, false]
    }),
    ("with an entry too large in the wanted one, then 3", |it| {
        it.number == 3 && it.large == [false, true]
    }),
    ("with an entry too large in both, then 3", |it| {
        it.number == 3 && it.large == [true; 2]
    }),
    ("with a lost bit below 0xf40 alone, then 13", |it| {
        it.number == 13 && it.lost == 1 && it.high == 0
    }),
    ("with a lost bit from 0xf40 up alone, then 13", |it| {
        it.number == 13 && it.lost == 0 && it.high_lost == 1
    }),
    ("with a bit lost and another gained, then 13", |it| {
        it.number == 13 && it.exchanged > 0
    }),
    ("with a row from 0xf40 up apart, then 11", |it| {
        it.number == 11 && it.high == 1
    }),
    ("513 rows apart, then 14", |it| it.number == 14 && it.apart == 513),
    ("with room for all but a byte, then 12", |it| {
        it.number == 12 && it.room + 1 == it.need
    }),
    ("with no room at all, then 12", |it| it.number == 12 && it.room == 0),
];

/// A job that was made and run on its present image: how many entries it has, what came of it, and at how many of its pulses it was cut
/// before, if it was.
pub struct Run {
    pub entries: usize,
    pub number: u32,
    pub place: u32,
    pub pulses: u32,
    pub cut: Option<u32>,
}

impl Run {
    fn done(&self) -> bool {
        self.number == 0
    }

    /// Cut, and then done with so many pulses more.
    fn cut_and(&self, holds: fn(u32, u32) -> bool) -> bool {
        self.done() && self.cut.is_some_and(|before| holds(before, self.pulses))
    }
}

pub const RUNS: &[Kind<Run>] = &[
    ("of no entries, then done", |run| run.done() && run.entries == 0),
    ("of some entries, then done", |run| run.done() && run.entries > 1),
    ("of 512 entries, then done", |run| run.done() && run.entries == 512),
    ("refused with 7 at their first entry", |run| {
        run.number == 7 && run.place == 0
    }),
    ("refused with 7 at a later entry", |run| {
        run.number == 7 && run.place > 0
    }),
    ("cut before their first pulse, then done", |run| {
        run.cut_and(|before, after| before == 0 && after > 0)
    }),
    ("cut part way, then done", |run| {
        run.cut_and(|before, after| before > 0 && after > 0)
    }),
    ("cut after their last pulse, then done", |run| {
        run.cut_and(|before, after| before > 0 && after == 0)
    }),
];
