//! Random pairs of images: equal, one bit apart, burnt further, with a bit lost, with rows from 0xf40 up that differ, with about 512 rows that
//! differ, with oversized entries and of other lengths, now and then in two ways at once; with room to the byte, too little and to spare. The job
//! of each is then run on the present image, cut and read.

use std::ops::Range;

use crate::arguments;
use crate::bench::{Bench, Difference};
use crate::code::Codes;
use crate::cuttings::bytes;
use crate::form::{DATA_END, MOST};
use crate::images::{too_large, Image};
use crate::made::Pair;
use crate::made_jobs::Job;
use crate::random::Random;
use crate::sequences::limit;
use crate::shape::{AREA, LARGEST, LOCK_ROWS, ROWS};
use crate::states;

/// A pair makes no more calls than this: its job is read by 513, and for each run each page is asked for.
pub const MOST_CALLS: u64 = 660;
/// Jobs of more entries are read once in so many times.
const FEW: usize = 16;
const SELDOM: u32 = 6;

/// Rows on both sides of each border.
const EDGES: [u32; 10] = [
    0,
    1,
    0x3f,
    0x40,
    0x0c0,
    DATA_END - 1,
    DATA_END,
    LOCK_ROWS - 1,
    LOCK_ROWS,
    ROWS as u32 - 1,
];

/// A row of this range: at a border, with something in it, or any.
fn row(random: &mut Random, image: &Image, range: Range<u32>) -> usize {
    let any = range.start + random.below(range.len() as u32);
    let row = match random.below(4) {
        0 => random.pick(&EDGES),
        1 => random.pick(&image.busy),
        _ => any,
    };
    if range.contains(&row) {
        row as usize
    } else {
        any as usize
    }
}

/// Bits of a word, at least one of them, or none where it has none.
fn some_of(random: &mut Random, word: u32) -> u32 {
    let places: Vec<u32> = (0..24).filter(|place| word >> place & 1 == 1).collect();
    if places.is_empty() {
        return 0;
    }
    1 << random.pick(&places) | word & random.number() & random.number()
}

/// One bit of a word, or none where it has none.
fn one_of(random: &mut Random, word: u32) -> u32 {
    let some = some_of(random, word);
    some & some.wrapping_neg()
}

/// A burnt bit of a row: where there is none, one is burnt in both images.
fn burnt_bit(random: &mut Random, present: &mut [u32], wanted: &mut [u32], row: usize) -> u32 {
    if present[row] & LARGEST == 0 {
        present[row] |= 1 << random.below(24);
        wanted[row] |= present[row];
    }
    one_of(random, present[row])
}

/// About 512 rows that differ, side by side or spread.
fn many(random: &mut Random, present: &mut [u32], wanted: &mut [u32]) {
    let count = random.pick(&[MOST - 1, MOST, MOST, MOST + 1, MOST + 1, MOST + 2, 1000]);
    let step = random.pick(&[1, DATA_END as usize / count]);
    let first = random.below((DATA_END as usize - step * (count - 1)) as u32) as usize;
    let apart: Vec<usize> = (0..ROWS).filter(|row| present[*row] != wanted[*row]).collect();
    for row in apart {
        wanted[row] = present[row];
    }
    for row in (first..).step_by(step).take(count) {
        // A row that is full has nothing to gain.
        present[row] &= LARGEST - 1;
        wanted[row] = present[row] | 1 | some_of(random, LARGEST ^ present[row]);
    }
}

/// Takes the images one step further apart.
fn part(random: &mut Random, image: &Image, present: &mut [u32], wanted: &mut [u32]) {
    let low = row(random, image, 0..DATA_END);
    let high = row(random, image, DATA_END..ROWS as u32);
    let any = random.pick(&[low, high]);
    match random.below(20) {
        0..=2 => wanted[low] |= one_of(random, LARGEST & !wanted[low]),
        3..=9 => {
            for _ in 0..1 + random.below(12) {
                let row = row(random, image, 0..DATA_END);
                wanted[row] |= some_of(random, LARGEST & !wanted[row]);
            }
        }
        10 | 11 => wanted[any] &= !burnt_bit(random, present, wanted, any),
        12 => {
            let bit = burnt_bit(random, present, wanted, any);
            wanted[any] = (wanted[any] & !bit) | one_of(random, LARGEST & !present[any]);
        }
        13 | 14 => wanted[high] |= one_of(random, LARGEST & !wanted[high]),
        15 | 16 => many(random, present, wanted),
        17 => present[any] = too_large(random),
        18 => wanted[any] = too_large(random),
        _ => {
            present[any] = too_large(random);
            wanted[any] = present[any];
        }
    }
}

/// Burns something in every row.
fn fill(random: &mut Random, present: &mut [u32]) {
    for entry in &mut present[..ROWS] {
        *entry |= random.number() & random.number() & LARGEST;
    }
}

/// The image, and the same after some steps.
fn pair(random: &mut Random, image: &Image) -> Pair {
    let mut present = image.rows.clone();
    if random.once_in(16) {
        fill(random, &mut present);
    }
    let mut wanted = present.clone();
    for _ in 0..random.pick(&[0, 1, 1, 1, 1, 1, 1, 2, 2, 3]) {
        part(random, image, &mut present, &mut wanted);
    }
    let (lent, length) = (arguments::length(random), arguments::length(random));
    let same = wanted == present && random.coin();
    wanted.truncate(length);
    Pair {
        present,
        lent,
        wanted: (!same).then_some(wanted),
    }
}

/// An output and what it held before: as long as the job, a little shorter or longer, as short as can be, with room for every job, or any.
fn output(random: &mut Random, pair: &Pair) -> Vec<u8> {
    let need = 7 + 6 * pair.apart().len();
    let length = match random.below(12) {
        0..=2 => need,
        3 => need - 1,
        4 => need + 1,
        5 => need.saturating_sub(random.below(14) as usize),
        6 => random.below(20) as usize,
        7 => 0,
        8 => AREA,
        _ => need + random.below(200) as usize,
    };
    bytes(random, length)
}

/// Draws a pair, makes its job, and runs, cuts and reads it.
pub fn make(random: &mut Random, bench: &mut Bench, codes: &Codes) -> Result<(), Difference> {
    let image = Image::new(random, codes, true);
    let pair = pair(random, &image);
    let Some(bytes) = pair.make(bench, &output(random, &pair))? else {
        return Ok(());
    };
    let (pair, count) = (&pair, pair.apart().len());
    let job = Job { pair, bytes };
    let state = match random.coin() {
        true => Default::default(),
        false => states::by_hand(random, &image),
    };
    job.run(bench, state)?;
    let key = arguments::key(random, &image);
    let limit = limit(random, pair.looked_at(0).bits);
    job.cut(bench, &key, limit)?;
    match count <= FEW || random.once_in(SELDOM) {
        true => job.read(bench),
        false => Ok(()),
    }
}
