//! How jobs with lock rows ended that were cut and run again (request 2026-09). Each kind is counted, so that none stays untried.

use crate::shape::{Answer, LOCK_ROWS};

/// A run, or a rehearsal, after a cut: the rows before the first run and those that the uncut job leaves, the rows as it finds them, and
/// what came of it.
pub struct Again<'a> {
    pub first: &'a [u32],
    pub uncut: &'a [u32],
    pub found: &'a [u32],
    pub keyed: bool,
    pub answer: Answer,
    pub row: Option<u32>,
}

impl Again<'_> {
    /// Whether some lock row holds what it did not hold before the first run: a lock pulse was given.
    pub fn locked(&self) -> bool {
        locks(self.found) != locks(self.first)
    }

    fn done(&self) -> bool {
        self.answer.number == 0
    }

    /// Refused at a lock row, or at a data row.
    fn refused_at(&self, lock: bool) -> bool {
        self.answer.number == 7 && self.row.is_some_and(|row| (row >= LOCK_ROWS) == lock)
    }

    /// Whether the cut fell within a row: a lock row, or a data row.
    fn within(&self, lock: bool) -> bool {
        let rows = self.first.iter().zip(self.found).zip(self.uncut).enumerate();
        let part_way = |((first, found), uncut): ((&u32, &u32), &u32)| found != first && found != uncut;
        rows.filter(|(row, _)| (*row >= LOCK_ROWS as usize) == lock)
            .any(|(_, row)| part_way(row))
    }
}

/// The lock rows.
pub fn locks(rows: &[u32]) -> &[u32] {
    &rows[LOCK_ROWS as usize..]
}

/// A kind of end: what it is called, and when it is one.
type Kind = (&'static str, fn(&Again) -> bool);

pub const KINDS: [Kind; 11] = [
    ("before the first lock pulse, then done", |run| {
        !run.locked() && run.done()
    }),
    ("within a data row, then done", |run| run.within(false) && run.done()),
    ("after a lock pulse, then done", |run| run.locked() && run.done()),
    ("within a lock row, then done", |run| run.within(true) && run.done()),
    ("after the last pulse, then done with none", |run| {
        run.found == run.uncut && run.done()
    }),
    ("after a lock pulse, then refused at a data row", |run| {
        run.locked() && run.refused_at(false)
    }),
    ("after a lock pulse, then refused at a lock row", |run| {
        run.locked() && run.refused_at(true)
    }),
    ("after a lock pulse, then done with a key", |run| {
        run.locked() && run.done() && run.keyed
    }),
    ("after a lock pulse, then done without a key", |run| {
        run.locked() && run.done() && !run.keyed
    }),
    ("after a lock pulse, then refused with a key", |run| {
        run.locked() && !run.done() && run.keyed
    }),
    ("after a lock pulse, then refused without a key", |run| {
        run.locked() && !run.done() && !run.keyed
    }),
];

/// How many runs after a cut there were, and how many of each kind.
#[derive(Default)]
pub struct Ends {
    runs: u64,
    of_kind: [u64; KINDS.len()],
}

impl Ends {
    /// Notes a run after a cut, if its job burns a lock row.
    pub fn note(&mut self, run: &Again) {
        if locks(run.first) == locks(run.uncut) {
            return;
        }
        self.runs += 1;
        for (count, (_, shows)) in self.of_kind.iter_mut().zip(KINDS) {
            *count += u64::from(shows(run));
        }
    }

    /// The first kind that never came up.
    pub fn missing(&self) -> Option<&'static str> {
        let never = self.of_kind.iter().position(|count| *count == 0)?;
        Some(KINDS[never].0)
    }

    pub fn print(&self) {
        println!(
            "{} runs of jobs with lock rows after a cut, of which so many were cut",
            self.runs
        );
        for (count, (name, _)) in self.of_kind.iter().zip(KINDS) {
            println!("{count:>8} {name}");
        }
    }
}
