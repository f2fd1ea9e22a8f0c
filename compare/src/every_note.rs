//! Chunks onto notes and areas of every kind: each count of bytes about the head, about the end of the entries and about 3,079, versions and
//! counts on both sides of each border, rows and parts that are right, wrong and neither, chunks and areas of every length; and ends of each
//! count.

use crate::bench::{Bench, Difference, BUFFER};
use crate::call::Call;
use crate::form::{Entry, MOST, RAW};
use crate::jobfiles::of_version;
use crate::shape::{Lead, Note, State, AREA, LOCK_ROWS, ROWS};

/// The versions and the counts that stand in the area.
const VERSIONS: [u16; 4] = [1, 2, 3, 0x0102];
const COUNTS: [u16; 7] = [0, 1, 2, 3, 511, 512, 513];

/// The lengths of chunks.
const LENGTHS: [usize; 7] = [0, 1, 2, 5, 6, 7, 20];

/// The bytes of the entry at a place.
type List = fn(u32) -> [u8; 6];

/// The entries that a job could have at each place of its list: rows that rise, of a bad kind, that fall, of lock rows; and no entries.
const LISTS: [List; 5] = [
    |place| entry(0x100 + place, RAW),
    |place| entry(0x100 + place, 2),
    |place| entry(0x800 - place, RAW),
    |place| entry(LOCK_ROWS + place % 128, RAW),
    |_| [0xff; 6],
];

fn entry(row: u32, kind: u8) -> [u8; 6] {
    [row as u8, (row >> 8) as u8, kind, 1, 0, 0]
}

/// The bytes of such a list from a place in the file on.
fn bytes(list: List, from: u32, length: usize) -> Vec<u8> {
    let at = |place: u32| match place.checked_sub(7) {
        Some(place) => list(place / 6)[place as usize % 6],
        None => [0x4f, 0x54, 0x4a, 2, 0, 2, 0][place as usize],
    };
    (from..from + length as u32).map(at).collect()
}

/// An area with this list in it, behind a head with these numbers.
fn area(list: List, (version, count): (u16, u16), length: usize) -> Vec<u8> {
    let head = [&[0x4f, 0x54, 0x4a][..], &version.to_le_bytes(), &count.to_le_bytes()].concat();
    let mut area = [head, bytes(list, 7, length)].concat();
    area.truncate(length);
    area
}

/// Notes of so many bytes: nothing more; the row that the area's list has next, with the bytes that it has begun and some behind them; and a row
/// too high, with a part that no list has.
fn notes(list: List, counted: u32) -> [Note; 3] {
    let place = counted.min(AREA as u32).saturating_sub(7);
    let entry = list(place / 6);
    let mut part = [0xee; 8];
    part[..place as usize % 6].copy_from_slice(&entry[..place as usize % 6]);
    let least = u32::from(entry[0]) + 256 * u32::from(entry[1]);
    [
        Note {
            counted,
            ..Note::default()
        },
        Note { counted, least, part },
        Note {
            counted,
            least: least + 1,
            part: [0xff; 8],
        },
    ]
}

/// Counts of bytes about the head and the first entries, about the most, and beyond.
fn counts() -> impl Iterator<Item = u32> {
    (0..=27).chain(3065..=3082).chain([0xffff, u32::MAX])
}

/// A chunk of each length onto each of these, where it goes on with the area's list or with another.
fn every_chunk(bench: &mut Bench) -> Result<(), Difference> {
    let heads = VERSIONS
        .iter()
        .flat_map(|version| COUNTS.iter().map(move |count| (*version, *count)));
    let each = heads.flat_map(|head| counts().map(move |counted| (head, counted)));
    for ((head, counted), turn) in each.flat_map(|each| (0..LISTS.len()).map(move |turn| (each, turn))) {
        let other = LISTS[(turn + counted as usize) % LISTS.len()];
        every_length(bench, &area(other, head, AREA), LISTS[turn], counted)?;
    }
    Ok(())
}

fn every_length(bench: &mut Bench, area: &[u8], list: List, counted: u32) -> Result<(), Difference> {
    let notes = notes(list, counted);
    for (length, note) in LENGTHS.iter().flat_map(|length| notes.map(|note| (*length, note))) {
        let chunk = bytes(list, counted.min(AREA as u32), length);
        let area = area.to_vec();
        bench.take(&mut Lead { note, area }, &chunk)?;
    }
    Ok(())
}

/// A chunk of more bytes than there is room for.
fn every_long_chunk(bench: &mut Bench) -> Result<(), Difference> {
    let lengths = [AREA - 1, AREA, AREA + 1, AREA + 2, 4096, 0xffff, 0x1_0000];
    for (length, counted) in lengths
        .iter()
        .flat_map(|length| counts().map(move |counted| (*length, counted)))
    {
        let note = notes(LISTS[0], counted)[length % 3];
        let area = area(LISTS[0], (1, 512), AREA);
        bench.take(&mut Lead { note, area }, &vec![0x11; length])?;
    }
    Ok(())
}

/// A chunk into areas of each length about the least, none and longer ones.
fn every_room(bench: &mut Bench) -> Result<(), Difference> {
    let lengths = (0..16).chain(AREA - 3..AREA + 4).chain([4096]);
    let notes = || counts().flat_map(|counted| notes(LISTS[0], counted));
    for (length, note) in lengths.flat_map(|length| notes().map(move |note| (length, note))) {
        let area = area(LISTS[0], (1, 512), length);
        bench.take(&mut Lead { note, area }, &[0x11; 9])?;
    }
    Ok(())
}

/// The end, and once again, of every count of bytes up to more than there can be.
fn every_end(bench: &mut Bench) -> Result<(), Difference> {
    let row = |row| Entry {
        row,
        kind: RAW,
        value: 0,
    };
    let list: Vec<Entry> = (0..MOST as u32).map(row).collect();
    let areas = [of_version(1, &list), area(LISTS[0], (2, 2), AREA)];
    let counts = || (0..AREA as u32 + 4).chain([0xffff, u32::MAX]);
    for (area, counted) in areas
        .iter()
        .flat_map(|area| counts().map(move |counted| (area.clone(), counted)))
    {
        let note = notes(LISTS[4], counted)[counted as usize % 3];
        end(bench, Lead { note, area }, ROWS)?;
    }
    Ok(())
}

/// The ladder of the end: too few rows, too many, too short an area, too many bytes, and each with each.
fn every_refusal(bench: &mut Bench) -> Result<(), Difference> {
    let lent = [ROWS, ROWS - 1, ROWS + 1, 0];
    let lengths = [AREA, AREA - 1, AREA + 1, 19, 0];
    let each = lent
        .iter()
        .flat_map(|lent| lengths.iter().map(move |length| (*lent, *length)));
    for ((lent, length), counted) in each.flat_map(|each| counts().map(move |counted| (each, counted))) {
        let area = area(LISTS[0], (1, 2), length);
        let note = notes(LISTS[0], counted)[1];
        end(bench, Lead { note, area }, lent)?;
    }
    Ok(())
}

fn end(bench: &mut Bench, lead: Lead, lent: usize) -> Result<(), Difference> {
    bench.load(&[0; BUFFER]);
    bench.state = State::blank();
    let call = Call::EndJob { lead };
    bench.call_with(&call, lent)?;
    bench.call_with(&call, lent).map(|_| ())
}

/// Makes all these calls.
pub fn every_note(bench: &mut Bench) -> Result<(), Difference> {
    every_chunk(bench)?;
    every_long_chunk(bench)?;
    every_room(bench)?;
    every_end(bench)?;
    every_refusal(bench)
}
