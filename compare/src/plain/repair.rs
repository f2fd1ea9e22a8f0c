//! For timings alone: the repair pass, with a lent report.

use crate::plain::chip::may_write;
use crate::plain::tallies::gain;
use crate::plain::{answer, refuse_if, row as one, Refusal};
use crate::shape::{
    Answer, State, CLEAN, LARGEST, REPAIRED, ROWS, ROW_CLEAN, ROW_DAMAGED, ROW_MENDED, ROW_NOT_PERMITTED, ROW_WORN,
    SECURE,
};

/// The first row that may not be listed.
const DATA_END: u32 = 0xf40;

/// Whether a row from 0xf40 up is listed, or one that is not above the row before it.
fn out_of_order(list: &[u32]) -> bool {
    let mut least = 0;
    for row in list {
        if *row < least || *row >= DATA_END {
            return true;
        }
        least = row + 1;
    }
    false
}

/// The report entry of a row that may be written, and the bit that is burnt in it.
fn told(row: u32) -> (u32, u32) {
    match one::read(row) {
        Err(_) => (ROW_DAMAGED, 0),
        Ok(read) => match (read.condition, (row >> read.bit) & 1) {
            (CLEAN, _) => (ROW_CLEAN, 0),
            (REPAIRED, 0) => (ROW_MENDED + 256 * read.bit, 1 << read.bit),
            _ => (ROW_WORN, 0),
        },
    }
}

pub fn repair(rows: &mut [u32], state: &mut State, list: &[u32], report: &mut [u32]) -> Answer {
    answer(repaired(rows, state, list, report))
}

fn repaired(rows: &mut [u32], state: &mut State, list: &[u32], report: &mut [u32]) -> Result<Answer, Refusal> {
    refuse_if(rows.len() != ROWS, 1)?;
    refuse_if(out_of_order(list), 11)?;
    refuse_if(report.len() < list.len(), 12)?;
    let large = |row: &u32| rows[*row as usize] > LARGEST && may_write(state, SECURE, *row);
    refuse_if(list.iter().any(large), 3)?;
    let mut pulses = 0;
    for (row, entry) in list.iter().zip(report) {
        let mut bit = 0;
        *entry = ROW_NOT_PERMITTED;
        if may_write(state, SECURE, *row) {
            (*entry, bit) = told(rows[*row as usize]);
        }
        rows[*row as usize] |= bit;
        gain(state, *row, u32::from(bit != 0));
        pulses += u32::from(bit != 0);
    }
    Ok(Answer::burnt(0, pulses))
}
