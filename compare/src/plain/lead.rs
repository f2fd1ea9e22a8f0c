//! For timings alone: a job taken in chunks into a lent area, and its end.

use crate::plain::jobs::{out_of_place, run_job, version, Entry, ENTRY, HEAD};
use crate::shape::{Answer, Note, State, AREA, PAST, ROWS};

fn count(area: &[u8]) -> usize {
    usize::from(u16::from_le_bytes([area[5], area[6]]))
}

/// Whether a byte of the head that is among these brings something wrong to its end.
fn bad_head(area: &[u8], from: usize, to: usize) -> bool {
    let among = |place: usize| from <= place && place < to;
    let mark = [0x4f, 0x54, 0x4a];
    (0..3).any(|place| among(place) && area[place] != mark[place])
        || (among(4) && !(1..=2).contains(&version(area)))
        || (among(6) && count(area) > 512)
}

/// The number of an entry's fault, or 0.
fn fault(entry: &Entry, version: u16, least: u32) -> u32 {
    if entry.bad() {
        10
    } else if out_of_place(entry, version, least) {
        11
    } else {
        0
    }
}

/// The entry that ends at a place and began before the chunk: its first bytes are in the note.
fn joined(area: &[u8], note: &Note, first: usize, from: usize) -> Entry {
    let begun = from - first;
    let mut bytes = [0; ENTRY];
    bytes[..begun].copy_from_slice(&note.part[..begun]);
    bytes[begun..].copy_from_slice(&area[from..first + ENTRY]);
    Entry::new(&bytes)
}

/// The first fault among the entries that end among these bytes. Each gives the note its row.
fn entries(area: &[u8], note: &mut Note, from: usize, to: usize) -> u32 {
    let version = version(area);
    let end = to.min(HEAD + ENTRY * count(area));
    let mut first = HEAD + (from.max(HEAD) - HEAD) / ENTRY * ENTRY;
    let mut word = 0;
    while first + ENTRY <= end {
        let entry = match first < from {
            true => joined(area, note, first, from),
            false => Entry::new(&area[first..first + ENTRY]),
        };
        let found = fault(&entry, version, note.least);
        word = if word == 0 { found } else { word };
        note.least = entry.row + 1;
        first += ENTRY;
    }
    word
}

/// What is begun of an entry at the end of the chunk.
fn part(area: &[u8], note: &Note, from: usize, to: usize) -> [u8; 8] {
    let mut part = [0; 8];
    if !(HEAD..AREA).contains(&to) || to >= HEAD + ENTRY * count(area) {
        return part;
    }
    let begun = (to - HEAD) % ENTRY;
    let first = to - begun;
    let old = from.saturating_sub(first).min(begun);
    part[..old].copy_from_slice(&note.part[..old]);
    part[old..begun].copy_from_slice(&area[first + old..to]);
    part
}

pub fn take_chunk(area: &mut [u8], note: &mut Note, chunk: &[u8]) -> Answer {
    if area.len() < AREA {
        return Answer::refused(12);
    }
    let from = note.counted.min(PAST) as usize;
    let to = (from + chunk.len()).min(PAST as usize);
    note.counted = to as u32;
    if from < AREA {
        let kept = chunk.len().min(AREA - from);
        area[from..from + kept].copy_from_slice(&chunk[..kept]);
    }
    let past = !chunk.is_empty() && to > HEAD + ENTRY * count(area);
    let head = from < HEAD && bad_head(area, from, to);
    let new_part = part(area, note, from, to);
    let entry = entries(area, note, from, to);
    if to > from {
        note.part = new_part;
    }
    match (head, entry, past) {
        (true, ..) | (false, 0, true) => Answer::value(10),
        _ => Answer::value(entry),
    }
}

pub fn end_job(rows: &mut [u32], state: &mut State, area: &[u8], note: &Note) -> Answer {
    if rows.len() != ROWS {
        return Answer::refused(1);
    }
    if area.len() < AREA {
        return Answer::refused(12);
    }
    match area.get(..note.counted as usize).filter(|job| job.len() <= AREA) {
        Some(job) => run_job(rows, state, job),
        None => Answer::refused(10),
    }
}
