//! For timings alone: a job's bytes read entry by entry.

use crate::plain::jobs::{Entry, ENTRY};
use crate::shape::Handed;

pub fn next_entry(job: &[u8], at: u64) -> Handed {
    let stays = Handed {
        at,
        ..Handed::default()
    };
    if at >= job.len() as u64 {
        return Handed { end: 1, ..stays };
    }
    let rest = &job[at as usize..];
    match rest.get(..ENTRY).map(Entry::new).filter(|entry| !entry.bad()) {
        Some(entry) => Handed {
            at: at + ENTRY as u64,
            row: entry.row,
            kind: u32::from(entry.kind),
            value: entry.value,
            ..stays
        },
        None => Handed { number: 10, ..stays },
    }
}
