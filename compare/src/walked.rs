//! A job's bytes read entry by entry: what is promised of each step and of the whole way (request 2026-04), held to the bytes and to what is
//! handed over alone. It asks neither the library nor the model for its rule.
//!
//! At or past the length the end is said, and nothing else is said there. An entry is the six bytes at its place, and the next place is behind
//! them. Where there are not six bytes, or a bad kind or ECC value, it is 10. At the end and at 10 the place stays. So from any place over any bytes
//! the way is done within a sixth of the length and one step, and never passes the length.

use crate::bench::{Bench, Difference};
use crate::call::Call;
use crate::shape::Handed;
use crate::tried::Kind;

/// A step: the place that was asked for, how many bytes there are, why no entry stands there, and what was handed over.
pub struct Step {
    at: u64,
    length: u64,
    fault: Option<Fault>,
    handed: Handed,
}

/// Why six bytes are no entry.
#[derive(Clone, Copy, PartialEq)]
enum Fault {
    Part,
    Kind,
    Ecc,
}

/// The places from here on are near the largest number.
const FAR: u64 = u64::MAX - 16;

pub const PLACES: &[Kind<Step>] = &[
    ("at a raw entry", |step| step.entry() && step.handed.kind == 1),
    ("at an ECC entry", |step| step.entry() && step.handed.kind == 0),
    ("at the last entry", |step| {
        step.entry() && step.handed.at == step.length
    }),
    ("at an entry before byte 7", |step| step.entry() && step.at < 7),
    ("at an entry from byte 7 on, between two", |step| {
        step.entry() && step.at > 7 && (step.at - 7) % 6 != 0
    }),
    ("at the length, then the end", |step| {
        step.handed.end == 1 && step.at == step.length
    }),
    ("past the length, then the end", |step| {
        step.handed.end == 1 && step.at > step.length
    }),
    ("at a place of more than 32 bits, then the end", |step| {
        step.handed.end == 1 && step.at >> 32 != 0 && step.at < FAR
    }),
    ("near the largest place, then the end", |step| {
        step.handed.end == 1 && step.at >= FAR
    }),
    ("in no bytes, then the end", |step| {
        step.handed.end == 1 && step.length == 0
    }),
    ("at a part entry, then 10", |step| step.refused_for(Fault::Part)),
    ("at the last byte, then 10", |step| {
        step.refused_for(Fault::Part) && step.at + 1 == step.length
    }),
    ("at a bad kind, then 10", |step| step.refused_for(Fault::Kind)),
    ("at a bad ECC value, then 10", |step| step.refused_for(Fault::Ecc)),
];

impl Step {
    fn entry(&self) -> bool {
        self.handed.number == 0 && self.handed.end == 0
    }

    fn refused_for(&self, fault: Fault) -> bool {
        self.handed.number == 10 && self.fault == Some(fault)
    }
}

/// Why the bytes from a place on begin with no entry, if they do not.
fn fault(rest: &[u8]) -> Option<Fault> {
    match rest {
        [_, _, 1, _, _, _, ..] | [_, _, 0, _, _, 0, ..] => None,
        [_, _, 0, _, _, _, ..] => Some(Fault::Ecc),
        [_, _, _, _, _, _, ..] => Some(Fault::Kind),
        _ => Some(Fault::Part),
    }
}

fn agree(holds: bool, (bytes, at): (&[u8], u64), what: &str) -> Result<(), Difference> {
    if holds {
        return Ok(());
    }
    let job = bytes.to_vec();
    let call = Call::NextEntry { at, job };
    Err(Difference(format!(
        "a job read by its entries fails: {call}: this does not hold: {what}"
    )))
}

/// What must be handed over at a place among so many bytes, where these follow.
fn due(at: u64, length: u64, rest: &[u8]) -> Handed {
    let stays = Handed {
        at,
        ..Handed::default()
    };
    if at >= length {
        return Handed { end: 1, ..stays };
    }
    if fault(rest).is_some() {
        return Handed { number: 10, ..stays };
    }
    let byte = |place: usize| u32::from(rest[place]);
    Handed {
        at: at + 6,
        row: byte(0) + 256 * byte(1),
        kind: byte(2),
        value: byte(3) + 256 * (byte(4) + 256 * byte(5)),
        ..stays
    }
}

/// Asks what stands at a place, and holds it to the bytes there.
pub fn step(bench: &mut Bench, bytes: &[u8], at: u64) -> Result<Handed, Difference> {
    let handed = bench.next_entry(bytes, at)?;
    let length = bytes.len() as u64;
    let rest = usize::try_from(at).ok().and_then(|at| bytes.get(at..));
    let rest = rest.unwrap_or_default();
    let (due, fault) = (due(at, length, rest), fault(rest));
    for (holds, what) in [
        (handed.end == due.end, "the end is said at or past the length alone"),
        (
            handed.number == due.number,
            "10 is for a part entry, a bad kind or ECC value alone",
        ),
        (
            handed.at == due.at,
            "the place moves behind an entry, and stays otherwise",
        ),
        (handed == due, "row, kind and value are those of the six bytes, or 0"),
    ] {
        agree(holds, (bytes, at), what)?;
    }
    bench.places.note(&Step {
        at,
        length,
        fault,
        handed,
    });
    Ok(handed)
}

/// What was handed over on a way: the row, kind and value of each entry, and what came last.
pub struct Walk {
    pub entries: Vec<[u32; 3]>,
    pub last: Handed,
}

/// Reads bytes from a place on, to the end or to 10.
pub fn walk(bench: &mut Bench, bytes: &[u8], from: u64) -> Result<Walk, Difference> {
    let (mut at, mut entries) = (from, Vec::new());
    for _ in 0..bytes.len() / 6 + 1 {
        let last = step(bench, bytes, at)?;
        if last.number != 0 || last.end != 0 {
            return Ok(Walk { entries, last });
        }
        agree(
            last.at <= bytes.len() as u64,
            (bytes, at),
            "no place that comes back after an entry is past the length",
        )?;
        entries.push([last.row, last.kind, last.value]);
        at = last.at;
    }
    Err(Difference(format!(
        "a job of {} bytes, read from {from}, is not done within a sixth of its length and one step",
        bytes.len()
    )))
}
