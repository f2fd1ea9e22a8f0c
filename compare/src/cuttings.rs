//! Random job files sent in chunks: of both versions, sound and spoilt, cut short, too long and longer than any job, in one chunk, byte by
//! byte, with empty chunks, and now and then with a chunk that is refused for want of room and sent again.

use crate::arguments;
use crate::bench::{Bench, Difference};
use crate::code::Codes;
use crate::images::Image;
use crate::jobfiles;
use crate::random::Random;
use crate::sent::{Sent, Whole};
use crate::shape::AREA;
use crate::spoilt;
use crate::states;
use crate::two_chips::Board;

/// A file sent makes no more calls than this.
pub const MOST_CALLS: u64 = 40;
/// The most bytes that come one by one, from the first on or from another, and the most places at which a file is cut.
const FIRST: usize = 32;
const SINGLE: usize = 16;
const PLACES: u32 = 8;

/// So many bytes.
pub fn bytes(random: &mut Random, count: usize) -> Vec<u8> {
    (0..count).map(|_| random.number() as u8).collect()
}

/// A job file, or what began as one: as it was drawn, spoilt, cut short, or lengthened a little, to about 3,079 bytes or far beyond.
pub fn file(random: &mut Random, image: &Image) -> Vec<u8> {
    let draft = jobfiles::draft(random, image);
    let mut file = spoilt::file(random, &draft);
    let length = file.len() as u32;
    let to = match random.below(16) {
        0 => random.below(length + 1),
        1 => length + 1 + random.below(20),
        2 => length.max(AREA as u32 - 6 + random.below(12)),
        3 => length + random.below(5000),
        _ => length,
    };
    let more = bytes(random, (to - to.min(length)) as usize);
    file.extend(more);
    file.truncate(to as usize);
    file
}

/// A place in a file to cut it at: in the head, at its end, about the end of any job, or anywhere.
fn place(random: &mut Random, length: usize) -> usize {
    let place = match random.below(5) {
        0 => random.below(14) as usize,
        1 => length.saturating_sub(random.below(8) as usize),
        2 => AREA - 4 + random.below(8) as usize,
        _ => random.below(length as u32 + 1) as usize,
    };
    place.min(length)
}

/// The lengths of chunks that part a file at these places, the highest of which is its length.
fn parted(mut places: Vec<usize>) -> Vec<usize> {
    places.sort_unstable();
    let before = [0].into_iter().chain(places.clone());
    places
        .iter()
        .zip(before)
        .map(|(place, before)| place - before)
        .collect()
}

/// How a file of so many bytes is cut: into one chunk, two or several, with single bytes from the first on or from another, or in equal
/// steps; and now and then with empty chunks between.
fn cutting(random: &mut Random, length: usize) -> Vec<usize> {
    let mut places = match random.below(6) {
        0 => vec![],
        1 => vec![place(random, length)],
        2 => (1..length).take(FIRST).collect(),
        3 => {
            let first = place(random, length);
            (first..length).take(SINGLE).collect()
        }
        4 => {
            let step = (1 + random.below(13) as usize).max(length / SINGLE + 1);
            (step..length).step_by(step).collect()
        }
        _ => (0..1 + random.below(PLACES)).map(|_| place(random, length)).collect(),
    };
    places.push(length);
    if random.once_in(3) {
        places.push(random.pick(&places));
        places.push(random.pick(&[0, length]));
    }
    parted(places)
}

/// An area, and what it held before: of the least length or a longer one.
fn area(random: &mut Random) -> Vec<u8> {
    let length = random.pick(&[AREA, AREA, AREA, AREA + 1, AREA + 6, AREA + 1000]);
    match random.once_in(3) {
        true => vec![0; length],
        false => bytes(random, length),
    }
}

/// A chip as it stands before a job.
pub fn board(random: &mut Random, image: &Image) -> Board {
    let state = match random.once_in(3) {
        true => Default::default(),
        false => states::by_hand(random, image),
    };
    Board {
        rows: image.rows.clone(),
        lent: arguments::length(random),
        state,
    }
}

/// The chunk with an area that is too short for it: refused, and nothing has moved.
fn refused(random: &mut Random, bench: &mut Bench, sent: &Sent, chunk: &[u8]) -> Result<(), Difference> {
    let mut short = sent.lead.clone();
    short.area.truncate(random.pick(&[0, 7, 13, AREA - 1]));
    let before = short.clone();
    let answer = bench.take(&mut short, chunk)?;
    match answer.number == 12 && short == before {
        true => Ok(()),
        false => Err(Difference("a chunk without room for it was not refused".to_string())),
    }
}

/// Sends a file in chunks, ends it, and holds it to the whole file.
pub fn send(random: &mut Random, bench: &mut Bench, codes: &Codes) -> Result<(), Difference> {
    let sound = random.coin();
    let image = Image::new(random, codes, sound);
    let (board, file) = (board(random, &image), file(random, &image));
    let whole = Whole::new(bench, &board, &file)?;
    let mut sent = Sent::new(&area(random));
    let lengths = cutting(random, file.len());
    let short = random.below(2 * lengths.len() as u32 + 8) as usize;
    let mut rest = &file[..];
    for (turn, length) in lengths.into_iter().enumerate() {
        let (chunk, after) = rest.split_at(length);
        if turn == short {
            refused(random, bench, &sent, chunk)?;
        }
        sent.chunk(bench, chunk)?;
        rest = after;
    }
    whole.end(bench, &sent)
}
