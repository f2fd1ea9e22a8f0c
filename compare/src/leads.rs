//! Any note and any area: heads, counts, rows and parts that no chunks have left there, areas of every length, and a chunk or two onto them;
//! then the end, and once again.

use crate::bench::{Bench, Difference};
use crate::call::Call;
use crate::code::Codes;
use crate::cuttings::{board, bytes, file};
use crate::early::{end, ENTRY, HEAD};
use crate::images::Image;
use crate::random::Random;
use crate::shape::{Lead, Note, AREA, ROWS};
use crate::spoilt::VERSIONS;

/// A lead makes no more calls than this.
pub const MOST_CALLS: u64 = 6;

/// Counts on both sides of the largest, and small ones.
const COUNTS: [u16; 12] = [0, 1, 1, 2, 2, 3, 4, 511, 512, 513, 514, 0xffff];
/// Rows that come next at a border, and numbers that are no row.
const LEAST: [u32; 10] = [0, 1, 0xf3f, 0xf40, 0xf80, 0xfff, 0x1000, 0xffff, 0x1_0000, u32::MAX];
/// Counts of bytes that no note has of itself.
const FAR: [u32; 6] = [3081, 3082, 0xffff, 0x8000_0000, u32::MAX - 5, u32::MAX];

/// An area with a file in it, or with any bytes, often with another head; and the file.
fn area(random: &mut Random, image: &Image) -> (Vec<u8>, Vec<u8>) {
    let length = match random.once_in(8) {
        true => random.pick(&[0, 1, 7, 13, AREA - 6, AREA - 1]),
        false => random.pick(&[AREA, AREA, AREA, AREA + 1, AREA + 7, 4096]),
    };
    let (mut area, file) = (bytes(random, length), file(random, image));
    if !random.once_in(4) {
        area.iter_mut().zip(&file).for_each(|(place, byte)| *place = *byte);
    }
    if random.once_in(3) {
        let count = random.pick(&COUNTS).to_le_bytes();
        let version = random.pick(&VERSIONS).to_le_bytes();
        let head = [&version[..], &count].concat();
        area.iter_mut()
            .skip(3)
            .zip(head)
            .for_each(|(place, byte)| *place = byte);
    }
    (area, file)
}

/// How many bytes are said to be there: few, about the count's end, about 3,079, within an entry, as many as the file has, or any number.
fn counted(random: &mut Random, area: &[u8], file: &[u8]) -> u32 {
    let end = if area.len() < 7 { HEAD } else { end(area) };
    match random.below(9) {
        0 => random.below(21),
        1 => (end + random.below(17)).saturating_sub(8),
        2 => 3070 + random.below(21),
        3 => random.pick(&FAR),
        4 => random.number(),
        5 => file.len() as u32,
        6 => HEAD + random.below(end.min(AREA as u32) - HEAD + ENTRY),
        _ => random.below(file.len() as u32 + 1),
    }
}

/// The bytes of the area from a place on, as far as there are any.
fn from(area: &[u8], place: u32) -> &[u8] {
    area.get(place as usize..).unwrap_or_default()
}

/// The first byte of the entry that a place is in, and how many bytes of it stand before the place.
fn begun(place: u32) -> (u32, usize) {
    let begun = place.saturating_sub(HEAD) % ENTRY;
    (place - begun, begun as usize)
}

/// What may come next is said to be: any row, one at a border, or one about the entry's that the count is in, or about the one's before it.
fn least(random: &mut Random, area: &[u8], counted: u32) -> u32 {
    let (first, _) = begun(counted);
    let row = match from(area, first.saturating_sub(random.pick(&[0, ENTRY]))) {
        [low, high, ..] => u32::from(*low) + 256 * u32::from(*high),
        _ => 0,
    };
    match random.below(8) {
        0 | 1 => 0,
        2 => random.pick(&LEAST),
        3 => random.number(),
        _ => (row + random.below(3)).saturating_sub(1),
    }
}

/// An entry begun: the area's own bytes, those with something behind them, others, or none.
fn part(random: &mut Random, area: &[u8], counted: u32) -> [u8; 8] {
    let mut part = [0; 8];
    let kind = random.below(6);
    if kind < 3 {
        part = part.map(|_| random.number() as u8);
    }
    let (first, begun) = begun(counted);
    if (2..5).contains(&kind) {
        let right = from(area, first).iter().take(begun);
        part.iter_mut().zip(right).for_each(|(place, byte)| *place = *byte);
    }
    part
}

/// A chunk: none, the file's next bytes, entries with rows that rise, or any bytes.
fn chunk(random: &mut Random, file: &[u8], counted: u32) -> Vec<u8> {
    let next = from(file, counted);
    let length = match random.below(8) {
        0 => 0,
        1 | 2 => 1,
        3 | 4 => 2 + random.below(12) as usize,
        5 => random.below(200) as usize,
        6 if random.once_in(3) => AREA - 4 + random.below(8) as usize,
        _ => next.len(),
    };
    let (row, kind) = (random.below(0x1000), random.below(3) as u8);
    let rising = (row..).flat_map(|row| [row as u8, (row >> 8) as u8, kind, 1, 0, 0]);
    match random.below(6) {
        0 => bytes(random, length),
        1 => rising.take(length).collect(),
        2 => rising.skip(begun(counted).1).take(length).collect(),
        _ => next.iter().copied().take(length).collect(),
    }
}

/// Draws a chip, a note and an area, takes a chunk or two, and announces the end twice.
pub fn any(random: &mut Random, bench: &mut Bench, codes: &Codes) -> Result<(), Difference> {
    let sound = random.coin();
    let image = Image::new(random, codes, sound);
    let board = board(random, &image);
    bench.load(&board.rows);
    bench.state = board.state;
    let (area, file) = area(random, &image);
    let counted = counted(random, &area, &file);
    let (least, part) = (least(random, &area, counted), part(random, &area, counted));
    let note = Note { counted, least, part };
    let mut lead = Lead { note, area };
    for _ in 0..1 + random.below(3) {
        let chunk = chunk(random, &file, lead.note.counted);
        bench.take(&mut lead, &chunk)?;
    }
    let lent = if random.once_in(8) { ROWS - 1 } else { board.lent };
    let end = Call::EndJob { lead };
    bench.call_with(&end, lent)?;
    bench.call_with(&end, lent).map(|_| ())
}
