//! For timings alone: a job made of two images, into a lent output.

use crate::plain::jobs::{ENTRY, HEAD};
use crate::plain::{answer, refuse_if, Refusal};
use crate::shape::{Answer, LARGEST, ROWS};

/// The first row that no job of version 1 may have, and the most entries of a job.
const DATA_END: usize = 0xf40;
const MOST: usize = 512;

fn too_large(image: &[u32]) -> bool {
    image.iter().any(|entry| *entry > LARGEST)
}

pub fn make_job(present: &[u32], wanted: &[u32], out: &mut [u8]) -> Answer {
    answer(made(present, wanted, out))
}

fn made(present: &[u32], wanted: &[u32], out: &mut [u8]) -> Result<Answer, Refusal> {
    refuse_if(present.len() != ROWS || wanted.len() != ROWS, 1)?;
    refuse_if(too_large(present) || too_large(wanted), 3)?;
    refuse_if(present.iter().zip(wanted).any(|(now, then)| now & !then != 0), 13)?;
    refuse_if(present[DATA_END..] != wanted[DATA_END..], 11)?;
    let rows = present.iter().zip(wanted).zip(0u16..);
    let differing = rows.filter(|((now, then), _)| now != then);
    let count = differing.clone().count();
    refuse_if(count > MOST, 14)?;
    let job = out.get_mut(..HEAD + ENTRY * count).ok_or(12u32)?;
    let (head, entries) = job.split_at_mut(HEAD);
    head[..5].copy_from_slice(&[0x4f, 0x54, 0x4a, 1, 0]);
    head[5..].copy_from_slice(&(count as u16).to_le_bytes());
    for (entry, ((_, wanted), row)) in entries.chunks_exact_mut(ENTRY).zip(differing) {
        entry[..2].copy_from_slice(&row.to_le_bytes());
        entry[2] = 1;
        entry[3..].copy_from_slice(&wanted.to_le_bytes()[..3]);
    }
    Ok(Answer::value((HEAD + ENTRY * count) as u32))
}
