//! Repair passes on each page locked and open, by its levels, by its lock row and by keys.

use crate::bench::{Bench, Difference};
use crate::code::Codes;
use crate::every_list::{listing, sorts};
use crate::form::DATA_END;
use crate::keys::{first_row, flag_row};
use crate::shape::{State, LARGEST, LOCK_ROWS, PAGE_ROWS};
use crate::states::{set_keys, set_levels, with_keys};

/// Keys that a page can be registered to: none, the one that may be entered, another, and one that never matches.
const KEYS: [u8; 4] = [0, 1, 2, 7];

/// Row 1 and some rows of a page, where that page is locked at a level, or all others are: by its lock row, cut after every row, and as it is set.
fn page_locked(bench: &mut Bench, sorts: &[u32], page: usize, level: u32, others: bool) -> Result<(), Difference> {
    let first = (page * PAGE_ROWS) as u32;
    let list: Vec<u32> = match page {
        0 => vec![0, 1, 2, 62, 63],
        _ => vec![1, first, first + 1, first + 62, first + 63],
    };
    let (mut pass, mut state) = (listing(&list, sorts), State::blank());
    for locked in (0..DATA_END as usize / PAGE_ROWS).filter(|locked| (*locked == page) != others) {
        pass.rows[LOCK_ROWS as usize + 2 * locked + 1] = 0x01_0101 * level;
        state.secure[locked] = level as u8;
    }
    pass.cut(bench, &[0; 16], &[0, 1, 2, 3, 4, 5])?;
    pass.twice(bench, state)?;
    pass.rows[list[2] as usize] = LARGEST + 1;
    pass.twice(bench, state).map(|_| ())
}

/// A page locked for writing or for all, and open while all others are; with each caller's level; and behind a key that is entered or is not.
fn every_level(bench: &mut Bench, sorts: &[u32], page: usize) -> Result<(), Difference> {
    for (level, others) in [(1, false), (2, false), (1, true), (2, true)] {
        page_locked(bench, sorts, page, level, others)?;
    }
    let first = (page * PAGE_ROWS) as u32;
    let list: Vec<u32> = (first..first + 60).step_by(5).collect();
    let pass = listing(&list, sorts);
    for choice in 0..4u8.pow(3) {
        let levels = [choice % 4, choice / 4 % 4, choice / 16];
        let mut state = State::blank();
        set_levels(&mut state, page, levels);
        pass.twice(bench, state)?;
    }
    for choice in 0..KEYS.len().pow(2) {
        let (write, read) = (KEYS[choice % KEYS.len()], KEYS[choice / KEYS.len()]);
        for entered in [true, false] {
            let mut state = with_keys(entered);
            set_keys(&mut state, page, (write, read, page % 2 == 1));
            pass.twice(bench, state)?;
        }
    }
    Ok(())
}

/// A page behind a key that is burnt: cut after every row, with that key, with another and with none.
fn every_key(bench: &mut Bench, codes: &Codes, sorts: &[u32]) -> Result<(), Difference> {
    let key: [u8; 16] = *b"sixteen byte key";
    let (first, low) = (LOCK_ROWS as usize, 2 * 5);
    let list: Vec<u32> = (5 * 64 - 3..5 * 64 + 12).collect();
    let mut pass = listing(&list, sorts);
    for (place, bytes) in key.chunks(2).enumerate() {
        let word = u16::from_le_bytes([bytes[0], bytes[1]]);
        pass.rows[first_row(1) as usize + place] = codes.of(u32::from(word));
    }
    pass.rows[flag_row(1) as usize] = 0x01_0101;
    for lock in [0x01_0101, 0x08_0808, 0x41_4141, 0x07_0707] {
        pass.rows[first + low] = lock;
        for entered in [&key, b"another long key", &[0; 16]] {
            pass.cut(bench, entered, &Vec::from_iter(0..=list.len()))?;
        }
    }
    Ok(())
}

/// Makes all these calls, after those of `every_list`.
pub fn every_page(bench: &mut Bench) -> Result<(), Difference> {
    let codes = Codes::new(None);
    let sorts = sorts(&codes);
    for page in 0..DATA_END as usize / PAGE_ROWS {
        every_level(bench, &sorts, page)?;
    }
    every_key(bench, &codes, &sorts)
}
