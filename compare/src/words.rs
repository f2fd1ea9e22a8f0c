//! What was said of jobs sent in chunks, and how they ended (request 2026-01). Each kind is counted, so that none stays untried.

use crate::sent::Sent;
use crate::shape::AREA;

/// A kind: what it is called, and when a job and the number of its end are of it.
type Kind = (&'static str, fn(&Sent, u32) -> bool);

pub const KINDS: [Kind; 17] = [
    ("no word, then done", |sent, number| silent(sent) && number == 0),
    ("no word, then refused at an entry", |sent, number| {
        silent(sent) && [7, 3, 9].contains(&number)
    }),
    ("no word, cut short, then 10", |sent, number| {
        silent(sent) && sent.cut_short() && number == 10
    }),
    ("no word, then 1", |sent, number| silent(sent) && number == 1),
    ("10, then 10", |sent, number| {
        first(sent, 10) && !sent.cut_short() && number == 10
    }),
    ("10, cut short, then 10", |sent, number| {
        first(sent, 10) && sent.cut_short() && number == 10
    }),
    ("11, then 11", |sent, number| first(sent, 11) && number == 11),
    ("11, then a later 10, then 10", |sent, number| {
        first(sent, 11) && sent.words.contains(&10) && number == 10
    }),
    ("11, with a 10 in the same chunk, then 10", |sent, number| {
        first(sent, 11) && !sent.words.contains(&10) && !sent.cut_short() && number == 10
    }),
    ("11, cut short, then 10", |sent, number| {
        first(sent, 11) && sent.cut_short() && number == 10
    }),
    ("a word, then 1", |sent, number| !silent(sent) && number == 1),
    ("of version 2, then done", |sent, number| {
        of_version_2(sent) && number == 0
    }),
    ("of version 2, then 11", |sent, number| {
        of_version_2(sent) && number == 11
    }),
    ("longer than 3,079 bytes", |sent, _| sent.bytes.len() > AREA),
    ("in one chunk", |sent, _| sent.lengths.len() == 1),
    ("byte by byte", |sent, _| {
        sent.lengths.len() > 12 && sent.lengths.iter().all(|length| *length == 1)
    }),
    ("with an empty chunk", |sent, _| sent.lengths.contains(&0)),
];

fn silent(sent: &Sent) -> bool {
    sent.words.is_empty()
}

fn first(sent: &Sent, word: u32) -> bool {
    sent.words.first() == Some(&word)
}

fn of_version_2(sent: &Sent) -> bool {
    sent.bytes.get(3..5) == Some(&[2, 0])
}

/// How many jobs were sent in chunks to their end, and how many of each kind.
#[derive(Default)]
pub struct Words {
    jobs: u64,
    of_kind: [u64; KINDS.len()],
}

impl Words {
    pub fn note(&mut self, sent: &Sent, number: u32) {
        self.jobs += 1;
        for (count, (_, shows)) in self.of_kind.iter_mut().zip(KINDS) {
            *count += u64::from(shows(sent, number));
        }
    }

    /// The first kind that never came up.
    pub fn missing(&self) -> Option<&'static str> {
        let never = self.of_kind.iter().position(|count| *count == 0)?;
        Some(KINDS[never].0)
    }

    pub fn print(&self) {
        println!("{} jobs sent in chunks, of which so many were", self.jobs);
        for (count, (name, _)) in self.of_kind.iter().zip(KINDS) {
            println!("{count:>8} {name}");
        }
    }
}
