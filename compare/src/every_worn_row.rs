//! Repair passes over rows of every sort: the code of some hundred values, in both polarities, with every choice of none, one and two wrong bits
//! among all 24, a whole chip of them in each pass; and each row by itself.

use crate::bench::{Bench, Difference, BUFFER};
use crate::code::Codes;
use crate::form::DATA_END;
use crate::passed::Pass;
use crate::shape::{State, LARGEST, ROWS};

/// How many values are taken beside those of few bits and of nearly all.
const SPREAD: u32 = 270;

/// After how many listed rows a pass over a whole chip is cut.
const CUTS: [usize; 7] = [0, 1, 64, 1000, 2500, 3903, 3904];

/// None and all, each bit alone and lost alone, and others over all 16 bits.
fn values() -> Vec<u32> {
    let single = (0..16).flat_map(|place| [1 << place, 0xffff ^ 1 << place]);
    let spread = (0..SPREAD).map(|i| i * 40_503 % 0x1_0000);
    [0, 0xffff].into_iter().chain(single).chain(spread).collect()
}

/// Every choice of at most two of 24 bits.
fn wrong() -> Vec<u32> {
    let two = (0..24).flat_map(|one| (0..24).map(move |other| 1 << one | 1 << other));
    let mut all: Vec<u32> = [0].into_iter().chain(two).collect();
    all.sort_unstable();
    all.dedup();
    all
}

/// A pass over these rows from row 0 on, all of them listed.
pub fn over(entries: &[u32]) -> Pass {
    let mut rows = vec![0; BUFFER];
    rows[..entries.len()].copy_from_slice(entries);
    Pass {
        rows,
        lent: ROWS,
        list: (0..entries.len() as u32).collect(),
        report: report(entries.len() + 1),
    }
}

/// A report of so many entries, which hold something before.
pub fn report(length: usize) -> Vec<u32> {
    (0..length as u32).map(|place| 0x5a5a_0000 ^ place).collect()
}

/// Rows with up to two wrong bits. A stride brings the sorts of a row into every page.
fn every_sort(bench: &mut Bench, codes: &Codes) -> Result<(), Difference> {
    let wrong = wrong();
    let right = values()
        .into_iter()
        .flat_map(|value| [0, LARGEST].map(|flip| codes.of(value) ^ flip));
    let all: Vec<u32> = right
        .flat_map(|right| wrong.iter().map(move |wrong| right ^ wrong))
        .collect();
    for entries in all.chunks(DATA_END as usize) {
        over(entries).cut(bench, &[0; 16], &CUTS)?;
    }
    Ok(())
}

/// Each row as the only one listed, and as the only one of a full list that can be mended, with another bit lost in each.
fn every_row(bench: &mut Bench, codes: &Codes) -> Result<(), Difference> {
    for (row, flip) in (0..DATA_END).flat_map(|row| [0, LARGEST].map(|flip| (row, flip))) {
        let right = codes.of(row * 2_663 % 0x1_0000) ^ flip;
        let ones: Vec<u32> = (0..22).filter(|place| right >> place & 1 == 1).collect();
        let Some(lost) = ones.get(row as usize % ones.len().max(1)) else {
            continue;
        };
        let mut pass = over(&[]);
        pass.rows[row as usize] = right ^ 1 << lost;
        pass.list = vec![row];
        pass.twice(bench, State::blank())?;
    }
    Ok(())
}

/// Makes all these calls, after those of `every_list` and `every_page`. Each kind of pass and of row must have come up.
pub fn every_worn_row(bench: &mut Bench) -> Result<(), Difference> {
    let codes = Codes::new(None);
    every_row(bench, &codes)?;
    every_sort(bench, &codes)?;
    let missing = bench
        .passes
        .missing()
        .or(bench.looked.missing())
        .or(bench.again.missing());
    match missing {
        Some(kind) => Err(Difference(format!("no repair pass, or no row of one, was {kind}"))),
        None => Ok(()),
    }
}
