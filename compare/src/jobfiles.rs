//! Job files of both versions, well formed and in order: over busy and quiet rows, and in version 2 with lock rows after them.

use crate::form::{Entry, DATA_END, ECC, MOST, RAW};
use crate::images::{lock_row, Image};
use crate::locks::owner;
use crate::random::Random;
use crate::shape::{LARGEST, LOCK_ROWS, ROWS};

/// A job: its version, and its entries.
pub struct Draft {
    pub version: u16,
    pub entries: Vec<Entry>,
}

impl Draft {
    /// The bytes of its file.
    pub fn bytes(&self) -> Vec<u8> {
        let mut file = vec![0x4f, 0x54, 0x4a];
        file.extend(self.version.to_le_bytes());
        file.extend((self.entries.len() as u16).to_le_bytes());
        for entry in &self.entries {
            file.extend((entry.row as u16).to_le_bytes());
            file.push(entry.kind);
            file.extend(&entry.value.to_le_bytes()[..3]);
        }
        file
    }
}

/// The bytes of a job file of a version with these entries.
pub fn of_version(version: u16, entries: &[Entry]) -> Vec<u8> {
    let entries = entries.to_vec();
    Draft { version, entries }.bytes()
}

/// The bytes of a version 1 job file with these entries.
pub fn bytes(entries: &[Entry]) -> Vec<u8> {
    of_version(1, entries)
}

/// A job of either version. One of version 2 has data rows, lock rows, or both.
pub fn draft(random: &mut Random, image: &Image) -> Draft {
    let mut entries = data(random, image);
    if random.coin() {
        return Draft { version: 1, entries };
    }
    if random.once_in(4) {
        entries.clear();
    }
    if !random.once_in(5) {
        entries.extend(locks(random, image, &entries));
    }
    Draft { version: 2, entries }
}

/// Data rows that rise.
fn data(random: &mut Random, image: &Image) -> Vec<Entry> {
    let count = match random.below(64) {
        0 => random.pick(&[MOST - 1, MOST, MOST]),
        1 => 13 + random.below(100) as usize,
        2..=5 => 0,
        _ => 1 + random.below(6) as usize,
    };
    let mut rows: Vec<u32> = (0..count).map(|_| row(random, image)).collect();
    if count > 400 {
        let first = random.below(DATA_END - MOST as u32 + 1);
        rows = (first..first + count as u32).collect();
    }
    rows.sort_unstable();
    rows.dedup();
    rows.into_iter().map(|row| entry(random, image, row)).collect()
}

fn row(random: &mut Random, image: &Image) -> u32 {
    let row = match random.below(12) {
        0 => random.pick(&[0, 1, 0x3f, 0x40, 0xc0, 0xf3e, 0xf3f]),
        1 | 2 => random.pick(&image.pages) * 64 + random.below(64),
        3..=5 => random.pick(&image.busy),
        _ => random.below(DATA_END),
    };
    row % DATA_END
}

fn entry(random: &mut Random, image: &Image, row: u32) -> Entry {
    let kind = random.pick(&[ECC, RAW]);
    let value = match kind {
        ECC if random.coin() => random.pick(&image.values),
        ECC => random.below(0x1_0000),
        _ if random.once_in(4) => random.pick(&[0, 1, LARGEST]),
        _ => random.below(LARGEST + 1),
    };
    Entry { row, kind, value }
}

/// Lock rows that rise, after these data rows: few, or as many as there are and the job has room for.
fn locks(random: &mut Random, image: &Image, data: &[Entry]) -> Vec<Entry> {
    let room = MOST - data.len();
    let mut rows: Vec<u32> = match random.below(64) {
        0 => (LOCK_ROWS..ROWS as u32).collect(),
        1..=6 => vec![0xffe, 0xfff],
        _ => (0..1 + random.below(5)).map(|_| locking(random, image, data)).collect(),
    };
    rows.sort_unstable();
    rows.dedup();
    rows.truncate(room);
    let kind = RAW;
    let each = rows.into_iter().map(|row| {
        let value = lock_value(random, row);
        Entry { row, kind, value }
    });
    each.collect()
}

/// A lock row: of a page that the job writes, of one that calls turn to, of one whose keys others take, or any.
fn locking(random: &mut Random, image: &Image, data: &[Entry]) -> u32 {
    let page = match random.below(4) {
        0 if !data.is_empty() => owner(random.pick(data).row) as u32,
        1 => random.pick(&image.pages),
        2 => random.pick(&[0, 31, 32, 62, 63]),
        _ => random.below(64),
    };
    LOCK_ROWS + 2 * page + random.below(2)
}

/// What a lock row is burnt with: a setting in its three copies, one of these alone, nothing, all bits, or any.
fn lock_value(random: &mut Random, row: u32) -> u32 {
    match random.below(8) {
        0 => random.pick(&[0, 1, 0x100, 0x10100, LARGEST]),
        1 => random.below(LARGEST + 1),
        2 => 0x01_0101 << random.below(8),
        _ => lock_row(random, row % 2 == 1),
    }
}
