//! Access keys: where they lie, how they are latched, when one matches, and what that does to a page.

use crate::code::Codes;
use crate::fault::Fault;
use crate::row::bit;
use crate::shape::{Key, State};
use crate::wear::disagree;

const KEY_ROWS: u32 = 0xf48;
const VALID_ROWS: u32 = 0xf78;

/// The first of the eight rows of key k, 1 to 6.
pub fn first_row(k: u32) -> u32 {
    KEY_ROWS + 8 * (k - 1)
}

/// The row of key k's valid flag.
pub fn flag_row(k: u32) -> u32 {
    VALID_ROWS + k
}

/// Whether a row belongs to a key that is latched valid.
pub fn hidden(state: &State, row: u32) -> bool {
    (1..=6).any(|k| {
        let first = first_row(k);
        state.keys[k as usize - 1].valid && first <= row && row < first + 8
    })
}

/// The words of a key given as 16 bytes, low byte first.
pub fn words(bytes: &[u8]) -> [u16; 8] {
    let mut words = [0; 8];
    for (i, word) in words.iter_mut().enumerate() {
        *word = u16::from(bytes[2 * i]) + 256 * u16::from(bytes[2 * i + 1]);
    }
    words
}

/// Latches key k. A row that does not decode leaves word 0 and a key that is not whole.
pub fn latch_key(fault: Option<Fault>, codes: &Codes, rows: &[u32], k: u32) -> Key {
    let mut key = Key {
        whole: true,
        ..Key::default()
    };
    for i in 0..8 {
        let row = rows[first_row(k) as usize + i];
        match codes.decode(row) {
            Some(_) if fault == Some(Fault::WornKey) && disagree(row) => key.whole = false,
            Some(near) => key.words[i] = near.value,
            None => key.whole = false,
        }
    }
    let flag = rows[flag_row(k) as usize];
    key.valid = [0, 8, 16].iter().filter(|place| bit(flag, **place)).count() >= 2;
    key
}

/// A latched key index; above 7 counts as 7.
pub fn index(fault: Option<Fault>, latched: u8) -> u8 {
    if fault == Some(Fault::IndexWraps) {
        return latched & 7;
    }
    latched.min(7)
}

/// Whether the key of an index matches the entered one.
pub fn matches(fault: Option<Fault>, state: &State, index: u8) -> bool {
    if !(1..=6).contains(&index) {
        return false;
    }
    let key = &state.keys[usize::from(index) - 1];
    let whole = key.whole || fault == Some(Fault::PartialKey);
    let given = state.entered.iter().any(|word| *word != 0) || fault == Some(Fault::ZeroKey);
    given && key.valid && whole && key.words == state.entered
}

/// The key level of a page, case by case as document 01 lists them.
#[allow(clippy::if_same_then_else)]
pub fn key_level(fault: Option<Fault>, state: &State, page: usize) -> u32 {
    let write = index(fault, state.writekey[page]);
    let read = index(fault, state.readkey[page]);
    if write == 0 && read == 0 {
        0
    } else if matches(fault, state, write) {
        0
    } else if matches(fault, state, read) {
        u32::from(!(fault == Some(Fault::ReadKeyLevel0) && write == 0))
    } else {
        u32::from(state.nokey[page]) + 1
    }
}
