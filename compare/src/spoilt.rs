//! Job files that are wrong in every way, now and then in two ways.

use crate::form::{Entry, DATA_END, ECC, MOST, RAW};
use crate::jobfiles::{of_version, Draft};
use crate::random::Random;
use crate::shape::{LARGEST, LOCK_ROWS};

/// Rows that no job may have: from 0xf40 to 0xf7f, and above 4,095.
const BETWEEN: [u32; 8] = [DATA_END, DATA_END, DATA_END + 1, 0xf48, 0xf78, 0xf7e, 0xf7f, 0xf7f];
const ABOVE: [u32; 6] = [0x1000, 0x1000, 0x1001, 0x1fff, 0x8f80, 0xffff];

/// Versions, those that are none among them: the low byte and the high byte of each are tried as 1 and 2.
pub const VERSIONS: [u16; 12] = [0, 1, 2, 3, 4, 0x0100, 0x0101, 0x0102, 0x0200, 0x0201, 0x0202, 0xffff];

/// A job file: more than half are good, the others are spoilt once, some of them twice.
pub fn file(random: &mut Random, job: &Draft) -> Vec<u8> {
    let version = job.version;
    let mut list = job.entries.clone();
    let (in_entries, in_bytes) = random.pick(&[(0, 0), (0, 0), (0, 0), (0, 0), (0, 0), (1, 0), (2, 0), (0, 1), (1, 1)]);
    for _ in 0..in_entries {
        spoil_entries(random, &mut list);
    }
    let mut file = of_version(version, &list);
    for _ in 0..in_bytes {
        spoil_bytes(random, &mut file);
    }
    file
}

/// Spoils an entry, in one way or not at all: kind, value, row, rows that do not rise; or adds one that does not belong.
fn spoil_entries(random: &mut Random, list: &mut Vec<Entry>) {
    if list.is_empty() {
        return;
    }
    let i = random.below(list.len() as u32) as usize;
    let before = list[i.saturating_sub(1)].row;
    let entry = &mut list[i];
    match random.below(14) {
        0 => entry.kind = random.pick(&[2, 3, 0x10, 0xff]),
        1 => {
            *entry = Entry {
                kind: ECC,
                value: random.pick(&[0x1_0000, 0x1_0001, LARGEST]),
                ..*entry
            }
        }
        2 => entry.row = random.pick(&[DATA_END, DATA_END + 1, 0xf48, 0xf80, 0xfff, 0x1000, 0xffff]),
        3 => entry.row = before,
        4 => entry.row = before.saturating_sub(1),
        5 => list.swap(i.saturating_sub(1), i),
        6 => add(random, list, &BETWEEN),
        7 => add(random, list, &ABOVE),
        8 | 9 => coded_lock(list),
        10 => across(list),
        _ => {}
    }
}

/// The first lock row's entry, or the end of the list.
fn first_lock(list: &[Entry]) -> usize {
    list.iter()
        .position(|entry| entry.row >= LOCK_ROWS)
        .unwrap_or(list.len())
}

/// Adds an entry where its row rises: nothing is wrong but the row.
fn add(random: &mut Random, list: &mut Vec<Entry>, rows: &[u32]) {
    let row = random.pick(rows);
    let kind = random.pick(&[ECC, RAW]);
    let place = list.iter().position(|entry| entry.row >= row).unwrap_or(list.len());
    list.insert(place, Entry { row, kind, value: 1 });
    list.truncate(MOST);
}

/// Gives the first lock row an ECC entry.
fn coded_lock(list: &mut [Entry]) {
    let first = first_lock(list);
    if let Some(entry) = list.get_mut(first) {
        entry.kind = ECC;
        entry.value &= 0xffff;
    }
}

/// Puts the first data row after the lock rows.
fn across(list: &mut [Entry]) {
    if first_lock(list) > 0 {
        list.rotate_left(1);
    }
}

/// Spoils the bytes, in one way or not at all: mark, version, count, length.
fn spoil_bytes(random: &mut Random, file: &mut Vec<u8>) {
    let length = file.len() as u32;
    match random.below(14) {
        0 => file.truncate(random.below(8) as usize),
        1 => file.truncate(random.below(length + 1) as usize),
        2 => file.truncate((length - length.min(1)) as usize),
        3 => file.extend(vec![0; random.pick(&[1, 2, 5, 6, 7, 12])]),
        4 | 5 => change(random, file, 0, 3),
        6 => change(random, file, 3, 2),
        7 => change(random, file, 5, 2),
        8 => over_count(random, file),
        9..=11 => other_version(random, file),
        _ => {}
    }
}

/// Changes one byte of a part, where the file has it.
fn change(random: &mut Random, file: &mut [u8], first: u32, count: u32) {
    let place = (first + random.below(count)) as usize;
    if let Some(byte) = file.get_mut(place) {
        *byte ^= 1 << random.below(8);
    }
}

/// Another version, or a number that is none.
fn other_version(random: &mut Random, file: &mut [u8]) {
    let version = random.pick(&VERSIONS);
    if let Some(place) = file.get_mut(3..5) {
        place.copy_from_slice(&version.to_le_bytes());
    }
}

/// A count above the largest, with or without the entries to go with it.
fn over_count(random: &mut Random, file: &mut Vec<u8>) {
    let count = random.pick(&[MOST + 1, MOST + 2, 0xffff]);
    if random.coin() && count < 1000 {
        let list: Vec<Entry> = (0..count as u32)
            .map(|row| Entry {
                row,
                kind: RAW,
                value: 0,
            })
            .collect();
        *file = of_version(random.pick(&[1, 2]), &list);
    } else if file.len() >= 7 {
        file[5..7].copy_from_slice(&(count as u16).to_le_bytes());
    }
}
