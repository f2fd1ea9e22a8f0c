//! Random repair passes: over rows that are clean, lost a 1, have a 1 too many, are worn in a flag bit, damaged or blank, in either polarity; with
//! lists that are short, long, and not in order, and reports to the entry, too short and to spare; on pages that are locked and behind keys,
//! with oversized entries listed and not. Each is made twice, and on the chip just reset it is cut and made again.

use crate::arguments;
use crate::bench::{Bench, Difference};
use crate::code::Codes;
use crate::form::DATA_END;
use crate::images::{too_large, Image};
use crate::passed::Pass;
use crate::random::Random;
use crate::shape::{State, LARGEST, PAGES, PAGE_ROWS};
use crate::states;

/// A pass makes no more calls than this: of each listed row it is asked twice what it reads as, and all of it comes twice.
pub const MOST_CALLS: u64 = 2800;
/// The longest list that is drawn.
const LONGEST: u32 = 600;

/// Rows that no list may have.
const HIGH: [u32; 9] = [
    0xf40,
    0xf41,
    0xf7f,
    0xf80,
    0xfff,
    0x1000,
    0x1_0003,
    0x8000_0000,
    u32::MAX,
];

/// One of the set bits of a word, or no bit.
fn one_of(random: &mut Random, word: u32) -> u32 {
    let places: Vec<u32> = (0..24).filter(|place| word >> place & 1 == 1).collect();
    match places.is_empty() {
        true => 0,
        false => 1 << random.pick(&places),
    }
}

/// A row as an old board has it.
fn worn(random: &mut Random, image: &Image, codes: &Codes) -> u32 {
    let value = match random.coin() {
        true => random.below(0x1_0000),
        false => random.pick(&image.values),
    };
    let row = codes.of(value) ^ random.pick(&[0, LARGEST]);
    let (code, flags) = (0x3f_ffff, 0xc0_0000);
    match random.below(16) {
        0..=2 => row,
        3..=7 => row ^ one_of(random, row & code),
        8 | 9 => row ^ one_of(random, !row & code),
        10 => row ^ one_of(random, flags),
        11 => row ^ one_of(random, flags) ^ one_of(random, code),
        12 => row ^ one_of(random, code) ^ one_of(random, code),
        13 => row ^ one_of(random, row & code) ^ one_of(random, LARGEST),
        14 => 0,
        _ => image.entry(random, codes),
    }
}

/// A row that may be listed: of a page that is turned to, at a border, or any.
fn row(random: &mut Random, image: &Image) -> u32 {
    let row = match random.below(8) {
        0 => random.pick(&[0, 1, 0x3f, 0x40, 0xf00, 0xf3e, 0xf3f]),
        1 | 2 => random.below(DATA_END),
        3 => random.pick(&image.busy),
        _ => random.pick(&image.pages) * PAGE_ROWS as u32 + random.below(PAGE_ROWS as u32),
    };
    row % DATA_END
}

/// Rising rows: a few, none, those of a page, or many.
fn rising(random: &mut Random, image: &Image) -> Vec<u32> {
    let few = random.pick(&[0, 1, 1, 2, 3, 5, 8, 12]);
    let mut list: Vec<u32> = match random.below(32) {
        0 => {
            let first = row(random, image) / 64 * 64;
            (first..first + 64).collect()
        }
        1 => {
            let (any, long) = (1 + random.below(LONGEST), LONGEST - random.below(100));
            let count = random.pick(&[any, long]);
            let step = random.pick(&[1, DATA_END / count]);
            let first = random.below(DATA_END - step * (count - 1));
            (first..).step_by(step as usize).take(count as usize).collect()
        }
        _ => (0..few).map(|_| row(random, image)).collect(),
    };
    list.sort_unstable();
    list.dedup();
    list
}

/// Spoils a list: with a row too high, a row listed twice, or rows that fall.
fn spoil(random: &mut Random, list: &mut Vec<u32>) {
    let any = random.number() | 0x1_0000;
    let place = random.below(list.len() as u32 + 1) as usize;
    match random.below(4) {
        0 | 1 => {
            let far = random.pick(&HIGH);
            let high = random.pick(&[DATA_END, DATA_END, far, any]);
            let place = random.pick(&[list.len(), list.len(), place]);
            list.insert(place, high);
        }
        2 if !list.is_empty() => {
            let twice = list[place.min(list.len() - 1)];
            list.insert(place.min(list.len() - 1), twice);
        }
        _ if list.len() > 1 => {
            let place = place.clamp(1, list.len() - 1);
            list.swap(place - 1, place);
        }
        _ => {}
    }
}

/// A list of rows: mostly one that a pass takes.
pub fn list(random: &mut Random, image: &Image) -> Vec<u32> {
    let mut list = rising(random, image);
    for _ in 0..random.pick(&[0, 0, 0, 0, 0, 0, 1, 1, 2]) {
        spoil(random, &mut list);
    }
    list
}

/// A report and what it held before: as long as the list, shorter or longer.
pub fn report(random: &mut Random, count: usize) -> Vec<u32> {
    let length = match random.below(12) {
        0 => count.saturating_sub(1),
        1 => random.below(count as u32 + 1) as usize,
        2 if random.coin() => 0,
        3 | 4 => count + 1,
        5 => count + random.below(40) as usize,
        _ => count,
    };
    (0..length)
        .map(|_| random.pick(&[0, 1, 2, 0x501, u32::MAX]) ^ random.number())
        .collect()
}

/// The image with worn rows where they are listed, and now and then with oversized entries.
fn pass(random: &mut Random, image: &Image, codes: &Codes) -> Pass {
    let mut rows = image.rows.clone();
    let list = list(random, image);
    let named: Vec<u32> = list.iter().copied().filter(|row| *row < DATA_END).collect();
    for row in &named {
        if !random.once_in(5) {
            rows[*row as usize] = worn(random, image, codes);
        }
    }
    if random.once_in(6) {
        for _ in 0..1 + random.below(3) {
            let any = row(random, image);
            let listed = if named.is_empty() { any } else { random.pick(&named) };
            rows[random.pick(&[any, listed, listed]) as usize] = too_large(random);
        }
    }
    let report = report(random, list.len());
    let lent = arguments::length(random);
    Pass {
        rows,
        lent,
        list,
        report,
    }
}

/// A state drawn, or one with no lock and any tallies.
fn state(random: &mut Random, image: &Image) -> State {
    let mut state = match random.once_in(3) {
        true => State::blank(),
        false => states::by_hand(random, image),
    };
    if random.once_in(3) {
        state.tallies = [0; PAGES].map(|_| states::tally(random));
    }
    state
}

/// Draws a pass, makes it and makes it again, and cuts it on the chip just reset.
pub fn repair(random: &mut Random, bench: &mut Bench, codes: &Codes) -> Result<(), Difference> {
    let image = Image::new(random, codes, true);
    let pass = pass(random, &image, codes);
    pass.twice(bench, state(random, &image))?;
    let key = match random.coin() {
        true => arguments::key(random, &image),
        false => vec![0; 16],
    };
    let count = pass.list.len() as u32;
    let cuts = [random.below(count + 1), random.below(count + 1)].map(|count| count as usize);
    pass.cut(bench, &key, &cuts)
}
