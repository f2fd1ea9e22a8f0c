//! Cards read from rows of every sort: every number in each row of a card, every one and two wrong bits in each, each ground for a refusal in each
//! row with each in the others, every setting of the card's page, and slices of other lengths.

use crate::bench::{Bench, Difference, BUFFER};
use crate::card_read::{is_card_or_none, read, read_alone, read_worn, FIRST};
use crate::cards::PAGE;
use crate::code::Codes;
use crate::shape::{Card, State, LARGEST, ROWS};
use crate::states::{set_keys, set_levels, with_keys};

/// Numbers of rows that are lent: none, as many as a card needs and nearly, about all, and more.
const LENGTHS: [usize; 9] = [0, 1, FIRST + 5, FIRST + 6, 2048, ROWS - 1, ROWS, ROWS + 1, BUFFER];

/// Keys that the page can be registered to: none, the one that may be entered, another, one that is not valid, and one that never matches.
const KEYS: [u8; 6] = [0, 1, 2, 3, 7, 255];

/// Numbers at and around every border.
const BORDERS: [u32; 17] = [
    0, 1, 2, 3, 239, 240, 241, 319, 320, 321, 1023, 1024, 1025, 0x7fff, 0x8000, 0x8001, 0xffff,
];

/// What makes a row wrong: two bits, so that it is damaged, or one above 24 bits, so that it is oversized.
const DAMAGED: u32 = 0x00_0021;
const LARGE: u32 = LARGEST + 1;

/// The numbers of good cards, row by row: of both versions, at the borders and in the midst.
const CARDS: [[u32; 6]; 6] = [
    [0x5053, 0x004c, 1, 320, 240, 0],
    [0x5053, 0x004c, 1, 1, 1, 0xffff],
    [0x5053, 0x004c, 2, 320, 240, 1024],
    [0x5053, 0x004c, 2, 1, 1, 1],
    [0x5053, 0x004c, 2, 200, 100, 200],
    [0x5053, 0x004c, 2, 128, 64, 256],
];

/// Puts the codes of a card's numbers into a blank chip, plain.
fn lay(bench: &mut Bench, codes: &Codes, values: &[u32; 6]) {
    bench.load(&[0; BUFFER]);
    bench.state = State::blank();
    for (row, value) in (FIRST as u32..).zip(values) {
        bench.put(row, codes.of(*value));
    }
}

/// Numbers at and around every border in each row of good cards, and in the line for more widths.
fn every_border(bench: &mut Bench, codes: &Codes) -> Result<(), Difference> {
    for (values, place) in CARDS.iter().flat_map(|values| (0..6).map(move |place| (values, place))) {
        lay(bench, codes, values);
        for value in BORDERS {
            bench.put(FIRST as u32 + place, codes.of(value));
            read(bench, ROWS)?;
        }
    }
    for width in [1, 2, 255, 256, 257, 319, 320] {
        lay(bench, codes, &[0x5053, 0x004c, 2, width, 240, 0]);
        for line in [width - 1, width, width + 1, 0x8000 + width].into_iter().chain(BORDERS) {
            bench.put(FIRST as u32 + 5, codes.of(line));
            read(bench, ROWS)?;
        }
    }
    Ok(())
}

/// Every number in each row of a card, plain: each row of version 1, and of version 2 those that say more there.
fn every_value(bench: &mut Bench, codes: &Codes) -> Result<(), Difference> {
    for (card, place) in [(0, 0), (0, 1), (0, 2), (0, 3), (0, 4), (2, 2), (2, 3), (4, 5)] {
        lay(bench, codes, &CARDS[card]);
        for value in 0..=0xffff {
            bench.put(FIRST as u32 + place, codes.of(value));
            let card = bench.read_card(ROWS)?;
            is_card_or_none(bench, &card)?;
        }
    }
    Ok(())
}

/// Every one and two wrong bits among all 24 in each row of good cards, in both polarities, and rows that are blank, full and oversized.
fn every_error(bench: &mut Bench, codes: &Codes) -> Result<(), Difference> {
    let two = (0..24).flat_map(|one| (one..24).map(move |other| 1 << one | 1 << other));
    let wrong: Vec<u32> = two.collect();
    for values in &CARDS[1..5] {
        for (place, flip) in (0..6).flat_map(|place| [0, LARGEST].map(|flip| (place, flip))) {
            lay(bench, codes, values);
            let (row, right) = ((FIRST + place) as u32, codes.of(values[place]) ^ flip);
            for entry in wrong.iter().map(|wrong| right ^ wrong) {
                bench.put(row, entry);
                read(bench, ROWS)?;
            }
            for entry in [
                0,
                LARGEST,
                right | right ^ LARGEST,
                LARGE,
                LARGE | right,
                u32::MAX,
                0x8000_0000,
            ] {
                bench.put(row, entry);
                read(bench, ROWS)?;
            }
        }
    }
    Ok(())
}

/// One flipped bit in each row of good cards, in either polarity: each place comes up in each row.
fn every_worn(bench: &mut Bench, codes: &Codes) -> Result<(), Difference> {
    for (values, flips) in CARDS
        .iter()
        .flat_map(|values| (0..64).map(move |flips| (values, flips)))
    {
        lay(bench, codes, values);
        for (row, value) in (FIRST as u32..).zip(values) {
            let flip = if flips >> (row - FIRST as u32) & 1 == 1 {
                LARGEST
            } else {
                0
            };
            bench.put(row, codes.of(*value) ^ flip);
        }
        let [_, _, version, width, height, sixth] = *values;
        let line = if version == 1 { width } else { sixth };
        let card = Card {
            number: 0,
            version,
            width,
            height,
            line,
        };
        for place in 0..22 {
            read_worn(bench, &card, [0, 1, 2, 3, 4, 5].map(|row| place + row * flips))?;
        }
    }
    Ok(())
}

/// What each row of a card can be: good, a number that it may not have, damaged, oversized. The version may be either good one.
fn grounds(codes: &Codes, place: usize) -> Vec<u32> {
    let numbers: &[u32] = match place {
        0 => &[0x5053, 0x5350],
        1 => &[0x004c, 0x014c],
        2 => &[1, 2, 3],
        3 => &[300, 0x8001],
        4 => &[200, 241],
        _ => &[300, 299],
    };
    let good = codes.of(numbers[0]);
    let rows = numbers.iter().map(|number| codes.of(*number));
    rows.chain([good ^ DAMAGED, LARGE | good]).collect()
}

/// Each ground in each row with each in the others; for some of them with the page locked, on slices of every length, and with other entries
/// in all other rows.
fn every_ground(bench: &mut Bench, codes: &Codes) -> Result<(), Difference> {
    let rows: Vec<Vec<u32>> = (0..6).map(|place| grounds(codes, place)).collect();
    let choices: usize = rows.iter().map(Vec::len).product();
    bench.load(&[0; BUFFER]);
    bench.state = State::blank();
    for each in 0..choices {
        let mut choice = each;
        for (row, grounds) in (FIRST as u32..).zip(&rows) {
            bench.put(row, grounds[choice % grounds.len()]);
            choice /= grounds.len();
        }
        read(bench, ROWS)?;
        if each % 41 == 0 {
            bench.state.nonsecure[PAGE] = 2;
            read(bench, ROWS)?;
            bench.state = State::blank();
        }
        if each % 43 == 0 {
            for lent in LENGTHS {
                read(bench, lent)?;
            }
        }
        if each % 47 == 0 {
            read_alone(bench)?;
        }
    }
    Ok(())
}

/// A card under every setting of its page, and of the pages before and after it: levels, keys, the no-key state, a key entered or none.
fn every_setting(bench: &mut Bench, codes: &Codes) -> Result<(), Difference> {
    for (values, page) in [(0, PAGE), (2, PAGE), (0, PAGE - 1), (0, PAGE + 1), (2, 0), (2, 62)] {
        lay(bench, codes, &CARDS[values]);
        for levels in (0..5u8.pow(3)).map(|choice| [choice % 5, choice / 5 % 5, choice / 25]) {
            bench.state = State::blank();
            set_levels(&mut bench.state, page, levels);
            read(bench, ROWS)?;
        }
        let choices = KEYS.len().pow(2) * 3;
        for (choice, entered) in (0..choices).flat_map(|choice| [true, false].map(|entered| (choice, entered))) {
            let (write, read_key) = (KEYS[choice % KEYS.len()], KEYS[choice / KEYS.len() % KEYS.len()]);
            for no_key in [true, false] {
                bench.state = with_keys(entered);
                set_keys(&mut bench.state, page, (write, read_key, no_key));
                bench.state.nonsecure[page] = (choice / KEYS.len().pow(2)) as u8;
                read(bench, ROWS)?;
            }
        }
    }
    Ok(())
}

/// Good cards and bad ones, and the same in all other rows, on slices of every length.
fn every_length(bench: &mut Bench, codes: &Codes) -> Result<(), Difference> {
    for values in CARDS {
        lay(bench, codes, &values);
        for lent in LENGTHS {
            read(bench, lent)?;
        }
        read_alone(bench)?;
        for (place, lent) in (0..6).flat_map(|place| LENGTHS.map(|lent| (place, lent))) {
            lay(bench, codes, &values);
            bench.put(FIRST as u32 + place, u32::MAX);
            read(bench, lent)?;
        }
    }
    Ok(())
}

/// Makes all these calls.
pub fn every_card(bench: &mut Bench) -> Result<(), Difference> {
    let codes = Codes::new(None);
    every_length(bench, &codes)?;
    every_border(bench, &codes)?;
    every_setting(bench, &codes)?;
    every_ground(bench, &codes)?;
    every_error(bench, &codes)?;
    every_worn(bench, &codes)?;
    every_value(bench, &codes)
}
