//! For timings alone: the calls on a row or a vote group.

use crate::plain::chip::{hidden, may_read, may_write, LAST_CALLER};
use crate::plain::tallies::gain;
use crate::plain::{answer, refuse_if, row as one, Refusal};
use crate::shape::{Answer, State, LARGEST, LOCK_ROWS, ROWS};

/// What comes before a row is looked at.
fn asked(rows: &[u32], caller: u32, row: u32, coded: bool, too_large: bool) -> Result<(), Refusal> {
    refuse_if(rows.len() != ROWS, 1)?;
    refuse_if(caller > LAST_CALLER || too_large, 4)?;
    refuse_if(row as usize >= ROWS, 2)?;
    refuse_if(coded && row >= LOCK_ROWS, 5)
}

/// The entry of a row that may be used.
fn entry(rows: &[u32], state: &State, may: bool, row: u32) -> Result<u32, Refusal> {
    refuse_if(hidden(state, row), 6)?;
    refuse_if(!may, 7)?;
    let entry = rows[row as usize];
    refuse_if(entry > LARGEST, 3)?;
    Ok(entry)
}

fn read(rows: &[u32], state: &State, caller: u32, row: u32, coded: bool) -> Result<u32, Refusal> {
    asked(rows, caller, row, coded, false)?;
    entry(rows, state, may_read(state, caller, row), row)
}

pub fn read_raw(rows: &[u32], state: &State, caller: u32, row: u32) -> Answer {
    answer(read(rows, state, caller, row, false).map(Answer::value))
}

pub fn read_ecc(rows: &[u32], state: &State, caller: u32, row: u32) -> Answer {
    answer(read(rows, state, caller, row, true).and_then(one::read))
}

/// The value of a row that is read with ECC.
pub fn read_value(rows: &[u32], state: &State, caller: u32, row: u32) -> Result<u32, Refusal> {
    let entry = read(rows, state, caller, row, true)?;
    one::read(entry).map(|read| read.value)
}

pub fn read_vote(rows: &[u32], state: &State, caller: u32, row: u32, count: u32) -> Answer {
    answer(voted(rows, state, caller, row, count))
}

fn voted(rows: &[u32], state: &State, caller: u32, row: u32, count: u32) -> Result<Answer, Refusal> {
    refuse_if(rows.len() != ROWS, 1)?;
    refuse_if(caller > LAST_CALLER || (count != 3 && count != 8), 4)?;
    refuse_if(row > ROWS as u32 - count, 2)?;
    refuse_if(row + count > LOCK_ROWS, 5)?;
    let mut gathered = [0; 8];
    for (place, at) in gathered.iter_mut().zip(row..row + count) {
        *place = entry(rows, state, may_read(state, caller, at), at)?;
    }
    let threshold = if count == 3 { 2 } else { 3 };
    Ok(Answer::value(one::vote(&gathered[..count as usize], threshold)))
}

/// Burns a row, and counts its new bits.
fn burnt(rows: &mut [u32], state: &mut State, row: u32, new: u32) -> Answer {
    let pulses = one::pulses(rows[row as usize], new);
    rows[row as usize] = new;
    gain(state, row, pulses);
    Answer::burnt(0, pulses)
}

pub fn write_raw(rows: &mut [u32], state: &mut State, caller: u32, row: u32, value: u32) -> Answer {
    answer(raw_written(rows, state, caller, row, value))
}

fn raw_written(rows: &mut [u32], state: &mut State, caller: u32, row: u32, value: u32) -> Result<Answer, Refusal> {
    asked(rows, caller, row, false, value > LARGEST)?;
    let old = entry(rows, state, may_write(state, caller, row), row)?;
    Ok(burnt(rows, state, row, old | value))
}

pub fn write_ecc(rows: &mut [u32], state: &mut State, caller: u32, row: u32, value: u32) -> Answer {
    answer(ecc_written(rows, state, caller, row, value))
}

fn ecc_written(rows: &mut [u32], state: &mut State, caller: u32, row: u32, value: u32) -> Result<Answer, Refusal> {
    asked(rows, caller, row, true, value > 0xffff)?;
    let old = entry(rows, state, may_write(state, caller, row), row)?;
    let new = one::written(old, value as u16)?;
    Ok(burnt(rows, state, row, new))
}
