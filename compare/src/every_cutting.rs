//! Job files sent in every cutting: with each fault in each entry, each bit of the head changed and bytes too many, cut in two at every byte,
//! byte by byte and in equal steps; ended after every byte; cut in three; and jobs of 512 entries and longer files, byte by byte and in steps.

use crate::bench::{Bench, Difference};
use crate::form::{Entry, DATA_END, ECC, MOST, RAW};
use crate::jobfiles::of_version;
use crate::sent::{Sent, Whole};
use crate::shape::{AREA, LOCK_ROWS, PAGES, ROWS};
use crate::two_chips::Board;

const fn raw(row: u32, value: u32) -> Entry {
    Entry { row, kind: RAW, value }
}

const fn ecc(row: u32, value: u32) -> Entry {
    Entry { row, kind: ECC, value }
}

/// Jobs that are taken, by version.
const JOBS: [(u16, &[Entry]); 7] = [
    (1, &[]),
    (1, &[ecc(0x0c0, 1)]),
    (1, &[ecc(0x0c0, 1), raw(0x0c1, 0x80_0009), ecc(0x100, 3), raw(0xf3f, 1)]),
    (2, &[ecc(0x0c0, 1), raw(0x0c1, 9)]),
    (2, &[raw(0xf80, 1)]),
    (2, &[ecc(0x0c0, 1), raw(0xfff, 1)]),
    (2, &[ecc(0x0c0, 1), raw(0x100, 9), raw(0xf80, 4), raw(0xfff, 4)]),
];

/// An entry in every way wrong: its form, its row whatever stands before it, its row after this one, and both.
fn wrong(entry: Entry, before: u32) -> Vec<Entry> {
    let row = |row| Entry { row, ..entry };
    let above = [DATA_END, LOCK_ROWS - 1, ROWS as u32, 0xffff].map(row);
    let below = [before, before.saturating_sub(1)].map(row);
    let form = [
        Entry { kind: 2, ..entry },
        ecc(entry.row, 0x1_0000),
        ecc(0xffff, 0x1_0000),
    ];
    let lock = [ecc(LOCK_ROWS, 1), raw(LOCK_ROWS + 1, 1)];
    [&above[..], &below, &form, &lock].concat()
}

/// The job with one entry wrong, at each place in each way.
fn one_wrong(list: &[Entry]) -> Vec<Vec<Entry>> {
    let mut jobs = Vec::new();
    for (place, entry) in list.iter().enumerate() {
        let before = place.checked_sub(1).map_or(0, |place| list[place].row);
        for entry in wrong(*entry, before) {
            let mut job = list.to_vec();
            job[place] = entry;
            jobs.push(job);
        }
    }
    jobs
}

/// The job with two entries wrong: one by its row and one by its form, in both orders, or both by their places, which they change.
fn two_wrong(list: &[Entry]) -> Vec<Vec<Entry>> {
    let mut jobs = Vec::new();
    for (first, second) in (0..list.len()).flat_map(|second| (0..second).map(move |first| (first, second))) {
        for (row, kind) in [(first, second), (second, first)] {
            let mut job = list.to_vec();
            job[row].row = 0xf7f;
            job[kind].kind = 0xff;
            jobs.push(job);
        }
        let mut job = list.to_vec();
        job.swap(first, second);
        jobs.push(job);
    }
    jobs
}

/// The file with each bit of its head changed, and with bytes after its end.
fn head_and_length(file: &[u8]) -> Vec<Vec<u8>> {
    let mut files = Vec::new();
    for bit in 0..56 {
        let mut file = file.to_vec();
        file[bit / 8] ^= 1 << (bit % 8);
        files.push(file);
    }
    files.extend([1, 2, 5, 6, 7, 13].map(|more| [file, &vec![1; more]].concat()));
    files
}

/// All files but the longest.
pub fn files() -> Vec<Vec<u8>> {
    let mut files = Vec::new();
    for (version, list) in JOBS {
        let file = of_version(version, list);
        files.extend(head_and_length(&file));
        files.push(file);
        let wrong = [one_wrong(list), two_wrong(list)].concat();
        files.extend(wrong.iter().map(|list| of_version(version, list)));
    }
    files
}

/// What an area held before: a whole job of 512 entries, so that what is left of it could pass for what was sent; and bytes behind it.
fn stale(behind: usize) -> Vec<u8> {
    let mut area = most(1, MOST);
    area.resize(AREA + behind, 0xa5);
    area
}

/// Cut in two at every byte, where the two are one at both ends.
fn in_two(bench: &mut Bench, whole: &Whole, length: usize) -> Result<(), Difference> {
    let area = stale(0);
    for first in 0..=length {
        whole.sent(bench, &area, &[first, length - first])?;
    }
    Ok(())
}

/// In chunks of so many bytes each and the rest, from single bytes to one chunk.
fn in_steps(bench: &mut Bench, whole: &Whole, length: usize, steps: &[usize]) -> Result<(), Difference> {
    let area = stale(9);
    for step in steps {
        let lengths: Vec<usize> = (0..length)
            .step_by(*step)
            .map(|from| (length - from).min(*step))
            .collect();
        whole.sent(bench, &area, &lengths)?;
    }
    Ok(())
}

/// Cut in three at every two bytes.
fn in_three(bench: &mut Bench, whole: &Whole, length: usize) -> Result<(), Difference> {
    let area = stale(1);
    for (first, second) in (0..=length).flat_map(|second| (0..=second).map(move |first| (first, second))) {
        whole.sent(bench, &area, &[first, second - first, length - second])?;
    }
    Ok(())
}

/// Ended after every byte: what came so far is judged as a whole file.
fn ended_early(bench: &mut Bench, board: &Board, file: &[u8]) -> Result<(), Difference> {
    let mut sent = Sent::new(&stale(0));
    for length in 0..=file.len() {
        Whole::new(bench, board, &file[..length])?.end(bench, &sent)?;
        sent.chunk(bench, &file[length..(length + 1).min(file.len())])?;
    }
    Ok(())
}

/// A chip without locks, one that refuses every row, and one of which a row too few is lent.
fn boards() -> [Board; 3] {
    let [open, mut locked, mut short] = [(); 3].map(|()| Board::blank());
    locked.state.secure = [1; PAGES];
    short.lent = ROWS - 1;
    [open, locked, short]
}

/// A job of so many entries that burn nothing; in version 2 the last are lock rows.
fn most(version: u16, count: usize) -> Vec<u8> {
    let locks = if version == 2 { 100 } else { 0 };
    let data = (0..count as u32 - locks).map(|row| raw(row, 0));
    let locks = (LOCK_ROWS..LOCK_ROWS + locks).map(|row| raw(row, 0));
    of_version(version, &data.chain(locks).collect::<Vec<Entry>>())
}

/// The longest jobs, with a fault in one byte of an entry or in none, and files that are longer.
pub fn longest() -> Vec<Vec<u8>> {
    let changed = |version, place: usize, byte| {
        let mut file = most(version, MOST);
        file[place] = byte;
        file
    };
    vec![
        most(2, MOST),
        changed(1, AREA - 6, 0),
        changed(2, AREA - 4, 2),
        changed(2, 7 + 2, 0xff),
        changed(2, 3, 1),
        changed(2, 3, 3),
        most(1, MOST + 1),
        [most(2, MOST), vec![0x4f; 9]].concat(),
    ]
}

/// Every short file, where nothing refuses an entry and where all is refused.
fn short_files(bench: &mut Bench, [open, _, short]: &[Board; 3]) -> Result<(), Difference> {
    for file in files() {
        ended_early(bench, open, &file)?;
        let whole = Whole::new(bench, open, &file)?;
        in_two(bench, &whole, file.len())?;
        in_steps(bench, &whole, file.len(), &[1, 2, 3, 5, 6, 7, 11])?;
        let refused = Whole::new(bench, short, &file)?;
        in_steps(bench, &refused, file.len(), &[4])?;
    }
    Ok(())
}

/// The jobs that are taken, on every board.
fn good_files(bench: &mut Bench, boards: &[Board]) -> Result<(), Difference> {
    for ((version, list), board) in JOBS.iter().flat_map(|job| boards.iter().map(move |board| (job, board))) {
        let file = of_version(*version, list);
        ended_early(bench, board, &file)?;
        let whole = Whole::new(bench, board, &file)?;
        in_steps(bench, &whole, file.len(), &[1, 4, AREA])?;
        if list.len() < 3 {
            in_three(bench, &whole, file.len())?;
        }
    }
    Ok(())
}

/// The longest files, and one of them cut in two, where its first entry is refused.
fn long_files(bench: &mut Bench, [open, locked, _]: &[Board; 3]) -> Result<(), Difference> {
    for file in longest() {
        let whole = Whole::new(bench, open, &file)?;
        in_steps(bench, &whole, file.len(), &[1, 7, 64, 1000, 5000])?;
    }
    let whole = Whole::new(bench, locked, &most(2, MOST))?;
    in_two(bench, &whole, AREA)
}

/// Makes all these calls. Each kind of word and end must have come up.
pub fn every_cutting(bench: &mut Bench) -> Result<(), Difference> {
    let boards = boards();
    short_files(bench, &boards)?;
    good_files(bench, &boards)?;
    long_files(bench, &boards)?;
    match bench.words.missing() {
        Some(kind) => Err(Difference(format!("no job sent in chunks was {kind}"))),
        None => Ok(()),
    }
}
