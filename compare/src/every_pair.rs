//! Jobs made of pairs of images: each row as the only one that differs, in each direction; every count of rows about the borders; every length of
//! the output about what is needed; and each page locked. What is refused for the images alone is in `every_ground`.

use crate::bench::{Bench, Difference, BUFFER};
use crate::form::DATA_END;
use crate::made::Pair;
use crate::made_jobs::Job;
use crate::shape::{State, AREA, LARGEST, LOCK_ROWS, PAGES, PAGE_ROWS, ROWS};

/// Counts of rows that differ: about none, about a byte, about the most, and all that a job can have.
const COUNTS: [usize; 13] = [0, 1, 2, 255, 256, 257, 511, 512, 513, 514, 1024, 3903, 3904];

/// The first and the last data row, key row and lock row.
pub const BORDERS: [usize; 6] = [0, 0xf3f, 0xf40, 0xf7f, 0xf80, 0xfff];

pub fn blank() -> Vec<u32> {
    vec![0; BUFFER]
}

/// An image that is the other but for one entry.
pub fn with(image: &[u32], row: usize, entry: u32) -> Vec<u32> {
    let mut image = image.to_vec();
    image[row] = entry;
    image
}

/// An output of so many bytes, which hold something before.
pub fn output(length: usize) -> Vec<u8> {
    (0..length).map(|place| 0xa5 ^ place as u8).collect()
}

/// Makes the job with room to spare, and where it is made runs and reads it.
pub fn made(bench: &mut Bench, pair: &Pair) -> Result<(), Difference> {
    if let Some(bytes) = pair.make(bench, &output(AREA + 9))? {
        let job = Job { pair, bytes };
        job.run(bench, State::blank())?;
        job.read(bench)?;
    }
    Ok(())
}

/// Each row as the only one that differs, by a bit gained, by a bit lost, by both; where all else is blank, and where all else is burnt.
fn every_row(bench: &mut Bench) -> Result<(), Difference> {
    for (image, row) in [0, LARGEST]
        .into_iter()
        .flat_map(|entry| (0..ROWS).map(move |row| (entry, row)))
    {
        let image = vec![image; BUFFER];
        let bit = 1 << (row % 24);
        let other = 1 << ((row + 1 + row / 24 % 23) % 24);
        for (now, then) in [
            (0, bit),
            (bit, 0),
            (bit, other),
            (bit, bit | other),
            (LARGEST, LARGEST ^ bit),
        ] {
            made(bench, &Pair::new(&with(&image, row, now), &with(&image, row, then)))?;
        }
    }
    Ok(())
}

/// Each bit of the border rows, gained and lost.
fn every_bit(bench: &mut Bench) -> Result<(), Difference> {
    for (row, place) in BORDERS
        .into_iter()
        .flat_map(|row| (0..24).map(move |place| (row, place)))
    {
        let rest = LARGEST ^ 1 << place;
        for (now, then) in [(0, 1 << place), (1 << place, 0), (rest, LARGEST), (LARGEST, rest)] {
            made(bench, &Pair::new(&with(&blank(), row, now), &with(&blank(), row, then)))?;
        }
    }
    Ok(())
}

/// The wanted image with so many rows burnt further, from a row on in steps.
pub fn further(present: &[u32], count: usize, first: usize, step: usize) -> Vec<u32> {
    let mut wanted = present.to_vec();
    for row in (first..).step_by(step).take(count) {
        wanted[row] |= 0x80_0001 | (row as u32) << 1;
    }
    wanted
}

/// Every count of rows that differ: the lowest, the highest and spread; and with one more from 0xf40 up.
fn every_count(bench: &mut Bench) -> Result<(), Difference> {
    let end = DATA_END as usize;
    for count in COUNTS {
        let layouts = [(0, 1), (end - count, 1), (0, (end / count.max(1)).min(64))];
        for (wanted, present) in layouts.into_iter().flat_map(|(first, step)| {
            [0, 0x1000].map(|entry| (further(&vec![entry; BUFFER], count, first, step), entry))
        }) {
            let pair = Pair::new(&vec![present; BUFFER], &wanted);
            made(bench, &pair)?;
            for more in [DATA_END as usize, ROWS - 1] {
                made(bench, &Pair::new(&pair.present, &with(&wanted, more, 0x1001)))?;
            }
            every_room(bench, &pair, 7 + 6 * count)?;
        }
    }
    Ok(())
}

/// Outputs of every length from 0 to 20, about what is needed, and about the longest job.
fn every_room(bench: &mut Bench, pair: &Pair, need: usize) -> Result<(), Difference> {
    let about = |length: usize| length.saturating_sub(8)..=length + 2;
    for length in (0..=20).chain(about(need)).chain(about(AREA)).chain([4096, 0x1_0000]) {
        pair.make(bench, &output(length))?;
    }
    Ok(())
}

/// A job over row 1 and the first and last row of a page, where that page is locked at a level, or all others are.
fn page_locked(bench: &mut Bench, page: usize, level: u32, others: bool) -> Result<(), Difference> {
    let (mut present, mut state) = (blank(), State::blank());
    for locked in (0..PAGES).filter(|locked| (*locked == page) != others) {
        present[LOCK_ROWS as usize + 2 * locked + 1] = 0x01_0101 * level;
        state.secure[locked] = level as u8;
    }
    let first = page * PAGE_ROWS;
    let wanted = with(&further(&present, 2, first, PAGE_ROWS - 1), 1, 2);
    let pair = &Pair::new(&present, &wanted);
    let Some(bytes) = pair.make(bench, &output(25))? else {
        return pair.agree(false, "three rows make a job");
    };
    let job = Job { pair, bytes };
    for limit in 0..=pair.looked_at(0).bits {
        job.cut(bench, &[0; 16], limit)?;
    }
    job.run(bench, state)
}

/// Each page locked for writing or for all, and open while all others are locked: as reset latches it, cut at every pulse, and as it is set.
fn every_page(bench: &mut Bench) -> Result<(), Difference> {
    let pages = 0..DATA_END as usize / PAGE_ROWS;
    for (page, level) in pages.flat_map(|page| [1, 2].map(|level| (page, level))) {
        page_locked(bench, page, level, false)?;
        page_locked(bench, page, level, true)?;
    }
    Ok(())
}

/// Makes all these calls, after those of `every_ground`. Each kind of pair and of run must have come up.
pub fn every_pair(bench: &mut Bench) -> Result<(), Difference> {
    every_bit(bench)?;
    every_count(bench)?;
    every_page(bench)?;
    every_row(bench)?;
    match bench.pairs.missing().or(bench.runs.missing()) {
        Some(kind) => Err(Difference(format!(
            "no pair of images, or no run of its job, was {kind}"
        ))),
        None => Ok(()),
    }
}
