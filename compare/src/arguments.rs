//! Arguments for calls: at and around every boundary, among the image's busy rows, and anything up to 32 bits.

use crate::bench::BUFFER;
use crate::images::Image;
use crate::random::Random;
use crate::shape::{CALLERS, LARGEST, LOCK_ROWS, ROWS};

/// Numbers that no argument of a call allows.
const FAR: [u32; 6] = [
    0x0100_0000,
    0x7fff_ffff,
    0x8000_0000,
    0xffff_fff8,
    0xffff_fffe,
    u32::MAX,
];

/// Rows on both sides of each boundary: pages, job rows, keys, flags, lock rows, the end.
const EDGES: [u32; 38] = [
    0, 1, 0x038, 0x03d, 0x03f, 0x040, 0x0bf, 0x0c0, 0xf3f, 0xf40, 0xf45, 0xf47, 0xf48, 0xf4f, 0xf50, 0xf57, 0xf58,
    0xf60, 0xf68, 0xf70, 0xf77, 0xf78, 0xf79, 0xf7d, 0xf7e, 0xf7f, 0xf80, 0xf81, 0xfbf, 0xfc0, 0xffb, 0xffc, 0xffd,
    0xffe, 0xfff, 0x1000, 0x1001, 0x1_0000,
];

fn far(random: &mut Random) -> u32 {
    match random.coin() {
        true => random.pick(&FAR),
        false => random.number(),
    }
}

pub fn caller(random: &mut Random) -> u32 {
    match random.below(24) {
        0 => random.pick(&[3, 4, 255, 256, 258]),
        1 => far(random),
        _ => random.below(CALLERS),
    }
}

pub fn domain(random: &mut Random) -> u32 {
    caller(random)
}

pub fn row(random: &mut Random, image: &Image) -> u32 {
    match random.below(16) {
        0 | 1 => random.pick(&EDGES),
        2 => random.below(ROWS as u32),
        3 => random.pick(&image.pages) * 2 + LOCK_ROWS + random.below(2),
        4 => 0xf40 + random.below(64),
        5 => LOCK_ROWS + random.below(128),
        6 if random.once_in(2) => far(random),
        6 => random.pick(&[4096, 4097, 4103]),
        7..=10 => random.pick(&image.pages) * 64 + random.below(64),
        _ => random.pick(&image.busy),
    }
}

/// A group's first row: often a little before a boundary, so that the group runs over it.
pub fn group(random: &mut Random, image: &Image) -> u32 {
    let first = match random.below(8) {
        0 => random.pick(&[0xf40, 0xf48, 0xf78, 0xf80, 0x1000, 0x0c0]),
        1 => random.pick(&image.pages) * 64,
        _ => row(random, image),
    };
    first.wrapping_sub(random.below(9))
}

pub fn count(random: &mut Random) -> u32 {
    match random.below(24) {
        0 => random.pick(&[0, 1, 2, 4, 5, 6, 7, 9, 16]),
        1 => far(random),
        _ => random.pick(&[3, 8]),
    }
}

pub fn raw_value(random: &mut Random) -> u32 {
    match random.below(24) {
        0 => random.pick(&[LARGEST + 1, LARGEST + 2]),
        1 => far(random),
        2 => random.pick(&[0, LARGEST]),
        3..=8 => 1 << random.below(24),
        9..=14 => 0x01_0101 << random.below(8),
        _ => random.below(LARGEST + 1),
    }
}

pub fn ecc_value(random: &mut Random, image: &Image) -> u32 {
    match random.below(24) {
        0 => random.pick(&[0x1_0000, 0x1_0001, LARGEST, LARGEST + 1]),
        1 => far(random),
        2..=7 => random.below(0x1_0000),
        _ => random.pick(&image.values),
    }
}

pub fn page(random: &mut Random, image: &Image) -> u32 {
    match random.below(24) {
        0 => random.pick(&[64, 65, 127, 128, 256]),
        1 => far(random),
        2..=8 => random.pick(&[0, 1, 61, 62, 63]),
        9..=14 => random.below(64),
        _ => random.pick(&image.pages),
    }
}

pub fn level(random: &mut Random) -> u32 {
    match random.below(24) {
        0 => random.pick(&[3, 4, 255, 256]),
        1 => far(random),
        _ => random.below(3),
    }
}

/// Key bytes: one of the image's keys, sometimes one bit off, sometimes too few or too many.
pub fn key(random: &mut Random, image: &Image) -> Vec<u8> {
    let words = random.pick(&image.keys);
    let mut bytes: Vec<u8> = words.iter().flat_map(|word| word.to_le_bytes()).collect();
    if random.once_in(6) {
        bytes[random.below(16) as usize] ^= 1 << random.below(8);
    }
    if random.once_in(12) {
        bytes.resize(random.pick(&[0, 1, 8, 15, 17, 32]), 0);
    }
    bytes
}

/// How many rows are lent: nearly always the right number.
pub fn length(random: &mut Random) -> usize {
    if !random.once_in(48) {
        return ROWS;
    }
    random.pick(&[0, 1, 2048, ROWS - 1, ROWS - 1, ROWS + 1, ROWS + 1, BUFFER])
}
