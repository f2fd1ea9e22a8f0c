//! Images of chips: mostly blank, with a few busy pages, lock words, keys, a card and rows, whole and damaged.

use crate::bench::BUFFER;
use crate::card_read::FIRST;
use crate::cards;
use crate::code::Codes;
use crate::keys::{first_row, flag_row};
use crate::random::Random;
use crate::shape::{LARGEST, LOCK_ROWS, ROWS};

pub struct Image {
    pub rows: Vec<u32>,
    /// Pages that calls turn to, most with a lock word, and rows with something in them.
    pub pages: Vec<u32>,
    pub busy: Vec<u32>,
    /// Keys and values that turn up again and again, so that matches and fits are common.
    pub keys: [[u16; 8]; 4],
    pub values: [u32; 8],
}

impl Image {
    /// A new image; with `sound` set, no entry is above 24 bits.
    pub fn new(random: &mut Random, codes: &Codes, sound: bool) -> Image {
        let keys = [random_key(random), random_key(random), [0, 0, 0, 0, 0, 0, 0, 1], [0; 8]];
        let any = random.below(0x1_0000);
        let values = [
            0,
            1,
            3,
            0x8000,
            0xffff,
            any,
            random.below(0x1_0000),
            random.below(0x1_0000),
        ];
        let rows = vec![0; BUFFER];
        let mut image = Image {
            rows,
            pages: Vec::new(),
            busy: Vec::new(),
            keys,
            values,
        };
        let quiet = random.once_in(5);
        image.add_locks(random, quiet);
        for k in 1..=6 {
            if !quiet {
                image.add_key(random, codes, k);
            }
        }
        for _ in 0..12 + random.below(20) {
            let row = image.some_row(random);
            image.rows[row as usize] = image.entry(random, codes);
            image.busy.push(row);
        }
        if random.once_in(3) {
            image.add_card(random, codes, sound);
        }
        if !sound {
            for _ in 0..random.below(6) {
                let row = image.some_row(random);
                image.rows[row as usize] = too_large(random);
                image.busy.push(row);
            }
        }
        for past in &mut image.rows[ROWS..] {
            *past = random.number();
        }
        image
    }

    /// Names some pages and, but for a quiet image, burns their lock words.
    fn add_locks(&mut self, random: &mut Random, quiet: bool) {
        for _ in 0..2 + random.below(6) {
            let page = match random.below(3) {
                0 => random.pick(&[0, 1, 2, 3, 60, 61, 62, 63]),
                _ => random.below(64),
            };
            self.pages.push(page);
            if quiet {
                continue;
            }
            let row = (LOCK_ROWS + 2 * page) as usize;
            self.rows[row] = lock_row(random, false);
            self.rows[row + 1] = lock_row(random, true);
        }
    }

    fn add_key(&mut self, random: &mut Random, codes: &Codes, k: u32) {
        if random.once_in(3) {
            return;
        }
        let words = random.pick(&self.keys);
        let damage = random.below(6);
        for (i, word) in words.iter().enumerate() {
            let row = first_row(k) as usize + i;
            self.rows[row] = coded(random, codes, u32::from(*word));
            if damage == 0 && random.once_in(4) {
                self.rows[row] ^= one_bit(random) | one_bit(random);
            } else if damage <= 2 && random.coin() {
                self.rows[row] ^= 1 << random.below(22);
            }
        }
        let flag = flag_row(k) as usize;
        self.rows[flag] = random.pick(&[0, 0x1, 0x101, 0x10001, 0x10100, 0x10101, 0x10101, 0xfefefe]);
        if random.once_in(4) {
            self.rows[flag] ^= random.below(0x100_0000) & 0xfefefe;
        }
    }

    /// A card, and calls that turn to it.
    fn add_card(&mut self, random: &mut Random, codes: &Codes, sound: bool) {
        for (row, entry) in (FIRST..).zip(cards::entries(random, codes)) {
            self.rows[row] = if sound { entry & LARGEST } else { entry };
            self.busy.push(row as u32);
        }
    }

    /// A row of a busy page, or any row below the lock rows.
    fn some_row(&self, random: &mut Random) -> u32 {
        match random.below(3) {
            0 => random.below(LOCK_ROWS),
            _ => random.pick(&self.pages).min(61) * 64 + random.below(64),
        }
    }

    /// An entry for a row: blank, a code in either polarity, whole, damaged or half burnt, or any bits.
    pub fn entry(&self, random: &mut Random, codes: &Codes) -> u32 {
        let value = match random.below(3) {
            0 => random.below(0x1_0000),
            _ => random.pick(&self.values),
        };
        let row = coded(random, codes, value);
        match random.below(12) {
            0 => 0,
            1 => one_bit(random),
            2 => one_bit(random) | one_bit(random),
            3 | 4 => row,
            5 | 6 => row ^ one_bit(random),
            7 => row ^ one_bit(random) ^ one_bit(random),
            8 => row ^ one_bit(random) ^ one_bit(random) ^ one_bit(random),
            9 | 10 => row & random.number(),
            _ => random.below(LARGEST + 1),
        }
    }
}

fn random_key(random: &mut Random) -> [u16; 8] {
    let mut key = [0; 8];
    for word in &mut key {
        *word = random.number() as u16;
    }
    key
}

fn one_bit(random: &mut Random) -> u32 {
    1 << random.below(24)
}

/// The code of a value, plain or inverted.
fn coded(random: &mut Random, codes: &Codes, value: u32) -> u32 {
    codes.of(value) ^ random.pick(&[0, LARGEST])
}

/// An entry that 24 bits do not hold.
pub fn too_large(random: &mut Random) -> u32 {
    let any = random.number();
    random.pick(&[LARGEST + 1, LARGEST + 2, u32::MAX, any | 0x8000_0000, any | 0x100_0000])
}

/// A lock row, low or high: three copies of a byte, mostly the same.
pub fn lock_row(random: &mut Random, high: bool) -> u32 {
    let copy = match high {
        true => levels(random),
        false => key_settings(random),
    };
    let mut row = copy | copy << 8 | copy << 16;
    match random.below(8) {
        0 => row ^= random.below(256) << (8 * random.below(3)),
        1 => row ^= one_bit(random) ^ one_bit(random),
        2 => row = random.below(LARGEST + 1),
        _ => {}
    }
    row
}

fn levels(random: &mut Random) -> u32 {
    let field = |random: &mut Random| random.pick(&[0, 0, 1, 2, 3]);
    let spare = if random.once_in(4) { random.below(4) << 6 } else { 0 };
    field(random) | field(random) << 2 | field(random) << 4 | spare
}

fn key_settings(random: &mut Random) -> u32 {
    let write = random.pick(&[0, 0, 0, 1, 2, 3, 4, 5, 6, 7]);
    let read = random.pick(&[0, 0, 0, 1, 2, 3, 4, 5, 6, 7]);
    let spare = if random.once_in(4) { 0x80 } else { 0 };
    write | read << 3 | random.below(2) << 6 | spare
}
