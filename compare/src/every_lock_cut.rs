//! Jobs of version 2 cut at every pulse, through data rows and lock rows: after each cut a reset and the same key, then one pulse more,
//! then the rest, and once again; and the same jobs one pulse at a time. What each is held to stands in `cuts`.

use crate::bench::{Bench, Difference, BUFFER};
use crate::cuts::{Setting, Trial};
use crate::form::{Entry, ECC, RAW};
use crate::jobfiles::of_version;
use crate::shape::State;

/// Key 1: the words 1, 0xffff, 0x8000, 0, 0, 0, 0, 1, with their codes as document 01 has them, in the key's rows; and its valid flag.
const KEY: [(u16, u32); 8] = [
    (1, 0x23_0001),
    (0xffff, 0x1e_ffff),
    (0x8000, 0x15_8000),
    (0, 0),
    (0, 0),
    (0, 0),
    (0, 0),
    (1, 0x23_0001),
];
const KEY_ROW: usize = 0xf48;
const FLAG: (usize, u32) = (0xf79, 0x01_0101);

/// A byte in the three copies of a lock row.
const fn copies(byte: u32) -> u32 {
    0x01_0101 * byte
}

const fn raw(row: u32, value: u32) -> Entry {
    Entry { row, kind: RAW, value }
}

const fn ecc(row: u32, value: u32) -> Entry {
    Entry { row, kind: ECC, value }
}

/// Data rows of page 3, and of page 4.
const DATA: [Entry; 3] = [ecc(0x0c0, 1), raw(0x0c1, 0x80_0009), ecc(0x100, 3)];

/// The lock rows of page n: low and high.
const fn low(page: u32) -> u32 {
    0xf80 + 2 * page
}

const fn high(page: u32) -> u32 {
    0xf81 + 2 * page
}

/// Lock rows after these data rows.
const LOCKS: [&[Entry]; 16] = [
    // None.
    &[],
    // Secure on a page that the job writes: it locks its own lock word.
    &[raw(high(3), copies(1))],
    // Secure on another page: its lock word alone.
    &[raw(high(9), copies(2))],
    // Non-secure and the bootloader: nothing that a job goes by.
    &[raw(high(3), copies(0x14)), raw(high(4), copies(0x28))],
    // Key 1 to write page 3, and a no-key state; the lock row itself takes page 62's.
    &[raw(low(3), copies(0x41))],
    // Key 2, which nobody has, for page 4.
    &[raw(low(4), copies(2)), raw(high(5), copies(4))],
    // Key 1 for page 62's keys, by which lock word 3 goes, and not lock word 62.
    &[raw(high(3), copies(4)), raw(low(62), copies(1))],
    // Key 1 for page 63's keys, by which lock word 63 goes: the high row comes after it in the same run.
    &[raw(low(63), copies(1)), raw(high(63), copies(4))],
    // Both pages locked up, low and high.
    &[
        raw(low(3), copies(1)),
        raw(high(3), copies(5)),
        raw(low(4), copies(9)),
        raw(high(4), copies(0x3f)),
    ],
    // Two copies of three, then all bits, then none.
    &[raw(0xf80, 0x00_0101), raw(0xfbf, 0xff_ffff), raw(0xfc0, 0)],
    // One copy, which counts for nothing.
    &[raw(high(3), 1), raw(0xfff, 0x10_0000)],
    // What is 11: a data row after a lock row, a row from 0xf40 to 0xf7f, a row above 4,095, and an ECC entry at a lock row.
    &[raw(high(9), copies(4)), raw(0x101, 9)],
    &[raw(0xf40, 9), raw(high(9), copies(4))],
    &[raw(0xf7f, 9), raw(high(9), copies(4))],
    &[raw(high(9), copies(4)), raw(0x1000, 9)],
    &[ecc(high(9), 1)],
];

/// Burnt before: nothing; one copy of Secure's level on page 3, so that the first pulse locks it; part of each data row.
const BURNT: [&[(usize, u32)]; 3] = [
    &[],
    &[(high(3) as usize, 1)],
    &[(0x0c0, 0x01_0001), (0x0c1, 8), (0x100, 2)],
];

/// The chip, with or without key 1, and the job with its data rows or without.
fn settings() -> Vec<Setting> {
    let mut list = Vec::new();
    for (locks, burnt) in LOCKS
        .iter()
        .flat_map(|locks| BURNT.iter().map(move |burnt| (locks, burnt)))
    {
        for (data, keyed) in [(&DATA[..], false), (&DATA[..], true), (&[], false)] {
            list.push(setting(&[data, locks].concat(), burnt, keyed));
        }
    }
    list
}

fn setting(entries: &[Entry], burnt: &[(usize, u32)], keyed: bool) -> Setting {
    let mut rows = vec![0; BUFFER];
    for (place, (_, code)) in KEY.iter().enumerate() {
        rows[KEY_ROW + place] = *code;
    }
    for (row, entry) in burnt.iter().chain([&FLAG]) {
        rows[*row] = *entry;
    }
    let key = KEY.iter().flat_map(|(word, _)| word.to_le_bytes()).collect();
    Setting {
        rows,
        before: State::blank(),
        key: if keyed { key } else { vec![0; 16] },
        job: of_version(2, entries),
    }
}

/// Cut at every pulse, then after one more, then run to its end twice.
fn every_pulse(bench: &mut Bench, setting: &Setting) -> Result<(), Difference> {
    let pulses = Trial::new(bench, setting)?.left;
    for limit in 0..=pulses {
        let mut trial = Trial::new(bench, setting)?;
        for part in [Some(limit), Some(1), None] {
            trial.part(bench, part)?;
            setting.begin(bench)?;
        }
        trial.part(bench, None)?;
    }
    Ok(())
}

/// Cut after each pulse, as many times as the whole job has pulses, and once more.
fn pulse_by_pulse(bench: &mut Bench, setting: &Setting) -> Result<(), Difference> {
    let mut trial = Trial::new(bench, setting)?;
    for _ in 0..=trial.left {
        trial.part(bench, Some(1))?;
        setting.begin(bench)?;
    }
    Ok(())
}

/// Makes all these calls. Each kind of end must have come up.
pub fn every_lock_cut(bench: &mut Bench) -> Result<(), Difference> {
    for setting in settings() {
        every_pulse(bench, &setting)?;
        pulse_by_pulse(bench, &setting)?;
    }
    match bench.ends.missing() {
        Some(kind) => Err(Difference(format!("no job with lock rows was cut {kind}"))),
        None => Ok(()),
    }
}
