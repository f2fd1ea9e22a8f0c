//! Every ground on which two images make no job: images of other lengths, oversized entries, and each refusal with each.

use crate::bench::{Bench, Difference, BUFFER};
use crate::every_pair::{blank, further, made, output, with, BORDERS};
use crate::form::{DATA_END, MOST};
use crate::made::Pair;
use crate::shape::{AREA, LARGEST, ROWS};

/// Numbers on both sides of what 24 bits hold.
const SIZES: [u32; 5] = [LARGEST - 1, LARGEST, LARGEST + 1, 0x8000_0000, u32::MAX];

/// Images of other lengths, one or both.
fn every_length(bench: &mut Bench) -> Result<(), Difference> {
    let lengths = [0, 1, DATA_END as usize, ROWS - 1, ROWS, ROWS + 1, BUFFER];
    let wanted = [blank(), further(&blank(), 3, 7, 64), with(&blank(), 5, u32::MAX)];
    for (lent, length) in lengths.iter().flat_map(|lent| lengths.map(|length| (*lent, length))) {
        for wanted in &wanted {
            let pair = Pair {
                present: blank(),
                lent,
                wanted: Some(wanted[..length].to_vec()),
            };
            pair.make(bench, &output(AREA))?;
            pair.make(bench, &output(3))?;
        }
        let wanted = None;
        let present = blank();
        Pair { present, lent, wanted }.make(bench, &output(AREA))?;
    }
    Ok(())
}

/// Entries of every size at border rows, in the one image, in the other and in both.
fn every_size(bench: &mut Bench) -> Result<(), Difference> {
    for (row, now) in BORDERS
        .into_iter()
        .flat_map(|row| [0].into_iter().chain(SIZES).map(move |now| (row, now)))
    {
        for then in [0].into_iter().chain(SIZES) {
            made(bench, &Pair::new(&with(&blank(), row, now), &with(&blank(), row, then)))?;
        }
        let (present, lent, wanted) = (with(&blank(), row, now), ROWS, None);
        Pair { present, lent, wanted }.make(bench, &output(AREA))?;
    }
    Ok(())
}

/// A ground for a refusal, put into a pair: at its lowest or its highest row.
type Ground = fn(&mut Pair, bool);

fn wanted(pair: &mut Pair) -> &mut Vec<u32> {
    pair.wanted.get_or_insert_with(Vec::new)
}

/// For 1: either image, too short or too long; for 3: either and both; for 13: below and from 0xf40 up; for 11; for 14.
const GROUNDS: [&[Ground]; 5] = [
    &[
        |_, _| {},
        |pair, low| pair.lent = if low { ROWS - 1 } else { ROWS + 1 },
        |pair, low| wanted(pair).resize(if low { ROWS - 1 } else { ROWS + 1 }, 0),
    ],
    &[
        |_, _| {},
        |pair, low| pair.present[if low { 2 } else { 0xffd }] = LARGEST + 1,
        |pair, low| wanted(pair)[if low { 2 } else { 0xffd }] = LARGEST + 1,
        |pair, low| {
            pair.present[if low { 2 } else { 0xffd }] = u32::MAX;
            wanted(pair)[if low { 2 } else { 0xffd }] = u32::MAX;
        },
    ],
    &[
        |_, _| {},
        |pair, low| pair.present[if low { 1 } else { 0xf3e }] = 4,
        |pair, low| pair.present[if low { 0xf41 } else { 0xffe }] = 4,
    ],
    &[|_, _| {}, |pair, low| wanted(pair)[if low { 0xf40 } else { 0xfff }] = 1],
    &[
        |_, _| {},
        |pair, low| {
            let first = if low { 3 } else { 0xf3d - MOST };
            wanted(pair)[first..=first + MOST].fill(1);
        },
    ],
];

/// Each refusal with each: all choices of grounds, and outputs that have room, no byte and one too few.
fn every_refusal(bench: &mut Bench) -> Result<(), Difference> {
    let choices: usize = GROUNDS.iter().map(|grounds| grounds.len()).product();
    for (mut choice, low) in (0..choices).flat_map(|choice| [true, false].map(|low| (choice, low))) {
        let mut pair = Pair::new(&blank(), &with(&blank(), 0x800, 1));
        for grounds in GROUNDS.iter().rev() {
            grounds[choice % grounds.len()](&mut pair, low);
            choice /= grounds.len();
        }
        let need = 7 + 6 * pair.apart().len();
        for room in [need, need - 1, 0] {
            pair.make(bench, &output(room))?;
        }
    }
    Ok(())
}

/// Makes all these calls.
pub fn every_ground(bench: &mut Bench) -> Result<(), Difference> {
    every_refusal(bench)?;
    every_size(bench)?;
    every_length(bench)
}
