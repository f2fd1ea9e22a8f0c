//! For timings alone: one row, with its code, reading it, voting, and what a write leaves.

use crate::plain::Refusal;
use crate::shape::{Answer, FLAG_WORN, LARGEST, REPAIRED};

const MASKS: [u32; 6] = [0x00ad5b, 0x00366d, 0x00c78e, 0x0007f0, 0x00f800, 0x1fffff];

/// For each syndrome the place whose flip makes it, or 22 where none does.
const PLACES: [u8; 64] = places();

const fn places() -> [u8; 64] {
    let mut places = [22; 64];
    let mut place = 0;
    while place < 22 {
        let flipped = 1 << place;
        let syndrome = (code(flipped as u16) ^ flipped) >> 16;
        places[syndrome as usize] = place as u8;
        place += 1;
    }
    places
}

/// The code of a value.
pub const fn code(value: u16) -> u32 {
    let mut bits = value as u32;
    let mut i = 0;
    while i < 6 {
        bits |= ((bits & MASKS[i]).count_ones() & 1) << (16 + i);
        i += 1;
    }
    bits
}

/// A row read with ECC.
pub fn read(row: u32) -> Result<Answer, Refusal> {
    let (upright, polarity, disagree) = match row >> 22 {
        3 => (row ^ LARGEST, 1, 0),
        0 => (row, 0, 0),
        _ => (row, 0, 1),
    };
    let bits = upright & 0x3fffff;
    let whole = Answer {
        condition: FLAG_WORN * disagree,
        polarity,
        disagree,
        ..Answer::value(bits & 0xffff)
    };
    let syndrome = (bits ^ code(bits as u16)) >> 16;
    if syndrome == 0 {
        return Ok(whole);
    }
    let place = u32::from(PLACES[syndrome as usize]);
    if place == 22 {
        return Err(8);
    }
    Ok(Answer {
        value: (bits ^ (1 << place)) & 0xffff,
        condition: whole.condition + REPAIRED,
        bit: place,
        ..whole
    })
}

/// The bits that at least so many rows have.
pub fn vote(rows: &[u32], threshold: usize) -> u32 {
    (0..24)
        .filter(|place| rows.iter().filter(|row| (*row >> place) & 1 == 1).count() >= threshold)
        .map(|place| 1 << place)
        .sum()
}

/// The row that an ECC write leaves.
pub fn written(old: u32, value: u16) -> Result<u32, Refusal> {
    let plain = code(value);
    let inverted = plain ^ LARGEST;
    match old {
        _ if old & !plain == 0 => Ok(plain),
        _ if old & !inverted == 0 => Ok(inverted),
        _ => Err(9),
    }
}

/// The bits newly set.
pub fn pulses(old: u32, new: u32) -> u32 {
    (new & !old).count_ones()
}
