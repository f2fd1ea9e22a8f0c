//! For timings alone: jobs, judged whole, then burnt, to the end or to a limit.

use crate::plain::chip::may_write;
use crate::plain::tallies::gain;
use crate::plain::{answer, refuse_if, row as one, Refusal};
use crate::shape::{Answer, State, LARGEST, ROWS, SECURE};

pub const HEAD: usize = 7;
pub const ENTRY: usize = 6;

pub struct Entry {
    pub row: u32,
    pub kind: u8,
    pub value: u32,
}

impl Entry {
    pub fn new(bytes: &[u8]) -> Entry {
        Entry {
            row: u32::from(u16::from_le_bytes([bytes[0], bytes[1]])),
            kind: bytes[2],
            value: u32::from_le_bytes([bytes[3], bytes[4], bytes[5], 0]),
        }
    }

    pub fn bad(&self) -> bool {
        self.kind > 1 || (self.kind == 0 && self.value > 0xffff)
    }

    /// The row that this entry leaves.
    fn written(&self, old: u32) -> Result<u32, Refusal> {
        match self.kind {
            0 => one::written(old, self.value as u16),
            _ => Ok(old | self.value),
        }
    }
}

fn entries(job: &[u8]) -> impl Iterator<Item = Entry> + '_ {
    job[HEAD..].chunks_exact(ENTRY).map(Entry::new)
}

pub fn version(job: &[u8]) -> u16 {
    u16::from_le_bytes([job[3], job[4]])
}

fn malformed(job: &[u8]) -> bool {
    if job.len() < HEAD || job[..3] != [0x4f, 0x54, 0x4a] || !(1..=2).contains(&version(job)) {
        return true;
    }
    let count = usize::from(u16::from_le_bytes([job[5], job[6]]));
    count > 512 || job.len() != HEAD + ENTRY * count || entries(job).any(|entry| entry.bad())
}

pub fn out_of_place(entry: &Entry, version: u16, least: u32) -> bool {
    let lock = version == 2 && entry.kind == 1 && (0xf80..ROWS as u32).contains(&entry.row);
    (entry.row >= 0xf40 && !lock) || entry.row < least
}

fn out_of_order(job: &[u8]) -> bool {
    let version = version(job);
    let mut least = 0;
    for entry in entries(job) {
        if out_of_place(&entry, version, least) {
            return true;
        }
        least = entry.row + 1;
    }
    false
}

fn judge(rows: &[u32], state: &State, entry: &Entry) -> Result<(), Refusal> {
    refuse_if(!may_write(state, SECURE, entry.row), 7)?;
    let old = rows[entry.row as usize];
    refuse_if(old > LARGEST, 3)?;
    entry.written(old).map(|_| ())
}

/// Judges the entries in order. A refusal has its place.
fn judge_all(rows: &[u32], state: &State, job: &[u8]) -> Result<(), Answer> {
    for (place, entry) in entries(job).enumerate() {
        judge(rows, state, &entry).map_err(|number| Answer {
            place: place as u32,
            ..Answer::refused(number)
        })?;
    }
    Ok(())
}

/// A row burnt upward for so many pulses.
fn burnt_upward(old: u32, new: u32, pulses: u32) -> u32 {
    let mut missing = new & !old;
    let mut row = old;
    for _ in 0..pulses {
        let lowest = missing & missing.wrapping_neg();
        row |= lowest;
        missing ^= lowest;
    }
    row
}

/// Burns the entries in order up to the limit, and counts the new bits of each; those after it are named, and gain none.
fn burn(rows: &mut [u32], state: &mut State, job: &[u8], limit: u32) -> Result<Answer, Refusal> {
    let mut left = limit;
    let mut place = 0;
    let mut entries = entries(job);
    while let Some(entry) = entries.next() {
        let row = &mut rows[entry.row as usize];
        let new = entry.written(*row)?;
        let pulses = one::pulses(*row, new);
        if left < pulses {
            *row = burnt_upward(*row, new, left);
            gain(state, entry.row, left);
            entries.for_each(|later| gain(state, later.row, 0));
            return Ok(Answer::burnt(place, limit));
        }
        *row = new;
        gain(state, entry.row, pulses);
        left -= pulses;
        place += 1;
    }
    Ok(Answer::burnt(place, limit - left))
}

pub fn rehearse(rows: &mut [u32], state: &mut State, job: &[u8], limit: u32) -> Answer {
    if rows.len() != ROWS {
        return Answer::refused(1);
    }
    if malformed(job) {
        return Answer::refused(10);
    }
    if out_of_order(job) {
        return Answer::refused(11);
    }
    match judge_all(rows, state, job) {
        Ok(()) => answer(burn(rows, state, job, limit)),
        Err(refused) => refused,
    }
}

pub fn run_job(rows: &mut [u32], state: &mut State, job: &[u8]) -> Answer {
    rehearse(rows, state, job, u32::MAX)
}
