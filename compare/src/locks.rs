//! Pages, lock words and the levels that they give.

use crate::fault::Fault;
use crate::row::bit;
use crate::shape::{State, LOCK_ROWS, NONSECURE, SECURE};

/// The page whose lock levels guard a row. Lock words guard themselves.
pub fn owner(row: u32) -> usize {
    if row < LOCK_ROWS {
        (row / 64) as usize
    } else {
        ((row - LOCK_ROWS) / 2) as usize
    }
}

/// The page whose key indexes and no-key state a row takes: lock words 0 to 31 take page 62's, 32 to 63 take page 63's, and
/// data pages keep their own (request 2026-02).
pub fn key_page(fault: Option<Fault>, row: u32) -> usize {
    let page = owner(row);
    if row < LOCK_ROWS || fault == Some(Fault::LockRowOwnWord) {
        return page;
    }
    let last_of_62 = if fault == Some(Fault::LockBorder) { 30 } else { 31 };
    match (page <= last_of_62) ^ (fault == Some(Fault::LockPagesSwapped)) {
        true => 62,
        false => 63,
    }
}

/// A lock row's three copies, voted bit by bit.
fn voted(row: u32) -> u32 {
    let mut byte = 0;
    for place in 0..8 {
        let copies = [bit(row, place), bit(row, place + 8), bit(row, place + 16)];
        if copies.iter().filter(|set| **set).count() >= 2 {
            byte |= 1 << place;
        }
    }
    byte
}

/// A burnt two-bit field as a level.
fn field(bits: u32) -> u8 {
    match bits & 3 {
        0 => 0,
        1 => 1,
        _ => 2,
    }
}

/// The bootloader's level: bits 5:4 of the high lock row (request 2026-05).
fn bootloader(fault: Option<Fault>, high: u32) -> u8 {
    match fault {
        Some(Fault::BootBits76) => field(high >> 6),
        Some(Fault::BootBits32) => field(high >> 2),
        Some(Fault::BootField3) => (high >> 4 & 3) as u8,
        Some(Fault::BootUnlatched) => 0,
        _ => field(high >> 4),
    }
}

/// Latches one page's lock word.
pub fn latch(fault: Option<Fault>, rows: &[u32], page: usize, state: &mut State) {
    let place = LOCK_ROWS as usize + 2 * page;
    let low = voted(rows[place]);
    let high = voted(rows[place + 1]);
    state.writekey[page] = (low & 7) as u8;
    state.readkey[page] = (low >> 3 & 7) as u8;
    state.nokey[page] = bit(low, 6);
    state.secure[page] = field(high);
    state.nonsecure[page] = field(high >> 2);
    state.bootloader[page] = bootloader(fault, high);
}

/// The level of a domain at a page; above 2 counts as 2.
pub fn level(fault: Option<Fault>, state: &State, domain: u32, page: usize) -> u32 {
    let latched = match domain {
        SECURE => state.secure[page],
        NONSECURE => state.nonsecure[page],
        _ => state.bootloader[page],
    };
    if fault == Some(Fault::LevelWraps) {
        return u32::from(field(u32::from(latched)));
    }
    u32::from(latched).min(2)
}
