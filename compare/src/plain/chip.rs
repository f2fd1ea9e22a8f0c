//! For timings alone: the state, with reset, locks, keys, and who may read and write a row.

use crate::plain::{answer, refuse_if, row, tallies, Refusal};
use crate::shape::{Answer, Key, State, BOOTLOADER, LARGEST, LOCK_ROWS, NONSECURE, ROWS, SECURE};

const KEY_ROWS: usize = 0xf48;
const FLAG_ROWS: usize = 0xf79;
pub const LAST_CALLER: u32 = BOOTLOADER;
const LAST_DOMAIN: u32 = BOOTLOADER;

/// What at least two of a lock row's three bytes have.
fn voted(row: u32) -> u8 {
    let [a, b, c, _] = row.to_le_bytes();
    (a & b) | (a & c) | (b & c)
}

fn latched_key(rows: &[u32], flag: u32) -> Key {
    let mut key = Key {
        valid: voted(flag) & 1 == 1,
        whole: true,
        ..Key::default()
    };
    for (word, row) in key.words.iter_mut().zip(rows) {
        match row::read(*row) {
            Ok(read) => *word = read.value as u16,
            Err(_) => key.whole = false,
        }
    }
    key
}

pub fn reset(rows: &[u32], state: &mut State) -> Answer {
    answer(latched(rows).map(|latched| {
        *state = latched;
        Answer::default()
    }))
}

fn latched(rows: &[u32]) -> Result<State, Refusal> {
    refuse_if(rows.len() != ROWS, 1)?;
    refuse_if(rows.iter().any(|row| *row > LARGEST), 3)?;
    let mut state = State::blank();
    for (page, word) in rows[LOCK_ROWS as usize..].chunks_exact(2).enumerate() {
        let (low, high) = (voted(word[0]), voted(word[1]));
        state.writekey[page] = low & 7;
        state.readkey[page] = (low >> 3) & 7;
        state.nokey[page] = (low >> 6) & 1 == 1;
        state.secure[page] = (high & 3).min(2);
        state.nonsecure[page] = ((high >> 2) & 3).min(2);
        state.bootloader[page] = ((high >> 4) & 3).min(2);
    }
    for (i, key) in state.keys.iter_mut().enumerate() {
        *key = latched_key(&rows[KEY_ROWS + 8 * i..][..8], rows[FLAG_ROWS + i]);
    }
    state.tallies = tallies::counted(rows);
    Ok(state)
}

/// The page or the lock word whose levels a row goes by.
fn owner(row: u32) -> usize {
    match row < LOCK_ROWS {
        true => (row / 64) as usize,
        false => ((row - LOCK_ROWS) / 2) as usize,
    }
}

/// The page whose keys a row goes by.
fn key_page(row: u32) -> usize {
    (row / 64) as usize
}

fn level(state: &State, domain: u32, page: usize) -> u8 {
    match domain {
        SECURE => state.secure[page].min(2),
        NONSECURE => state.nonsecure[page].min(2),
        _ => state.bootloader[page].min(2),
    }
}

fn matches(state: &State, index: u8) -> bool {
    match index {
        1..=6 => {
            let key = &state.keys[index as usize - 1];
            key.valid && key.whole && key.words == state.entered && state.entered != [0; 8]
        }
        _ => false,
    }
}

fn key_level(state: &State, page: usize) -> u8 {
    let (write, read) = (state.writekey[page], state.readkey[page]);
    if write == 0 && read == 0 || matches(state, write) {
        0
    } else if matches(state, read) {
        1
    } else {
        1 + u8::from(state.nokey[page])
    }
}

/// Whether a row is one of a latched valid key.
pub fn hidden(state: &State, row: u32) -> bool {
    (0xf48..0xf78).contains(&row) && state.keys[(row as usize - KEY_ROWS) / 8].valid
}

pub fn may_read(state: &State, caller: u32, row: u32) -> bool {
    let page = owner(row);
    row >= LOCK_ROWS
        || level(state, caller, page) <= 1
            && (caller != BOOTLOADER || level(state, SECURE, page) <= 1)
            && key_level(state, key_page(row)) <= 1
}

pub fn may_write(state: &State, caller: u32, row: u32) -> bool {
    let page = owner(row);
    level(state, SECURE, page) == 0
        && (caller == SECURE || level(state, caller, page) == 0)
        && key_level(state, key_page(row)) == 0
}

pub fn advance(state: &mut State, caller: u32, domain: u32, page: u32, asked: u32) -> Answer {
    answer(advanced(state, caller, domain, page, asked))
}

fn advanced(state: &mut State, caller: u32, domain: u32, page: u32, asked: u32) -> Result<Answer, Refusal> {
    refuse_if(
        caller > LAST_CALLER || domain > LAST_DOMAIN || page > 63 || asked > 2,
        4,
    )?;
    refuse_if(domain == BOOTLOADER || caller == BOOTLOADER, 7)?;
    refuse_if(caller == NONSECURE && domain == SECURE, 7)?;
    let page = page as usize;
    if asked as u8 > level(state, domain, page) {
        match domain {
            SECURE => state.secure[page] = asked as u8,
            _ => state.nonsecure[page] = asked as u8,
        }
    }
    Ok(Answer::default())
}

pub fn show(state: &State, caller: u32, domain: u32, page: u32) -> Answer {
    if caller > LAST_CALLER || domain > LAST_DOMAIN || page > 63 {
        return Answer::refused(4);
    }
    Answer::value(u32::from(level(state, domain, page as usize)))
}

pub fn enter_key(state: &mut State, caller: u32, key: &[u8]) -> Answer {
    if caller > LAST_CALLER || key.len() != 16 {
        return Answer::refused(4);
    }
    if caller != SECURE {
        return Answer::refused(7);
    }
    for (word, bytes) in state.entered.iter_mut().zip(key.chunks_exact(2)) {
        *word = u16::from_le_bytes([bytes[0], bytes[1]]);
    }
    Answer::default()
}
