//! Job files read at every place: good ones of both versions, with each fault in each entry and each bit of the head changed, and bytes that are
//! no job, from every place up to some past the length, and about 2^32 and 2^64; every kind with values at the borders; every length of bytes.

use crate::bench::{Bench, Difference};
use crate::every_cutting::{files, longest};
use crate::walked::{step, walk};

/// Values on both sides of what an ECC entry may have, and of what 24 bits hold.
const VALUES: [u32; 9] = [0, 1, 0xff, 0x100, 0xffff, 0x1_0000, 0x1_0001, 0x80_0000, 0xff_ffff];

/// Rows on both sides of each border, and the last that six bytes can name.
const ROWS: [u16; 8] = [0, 0xf3f, 0xf40, 0xf7f, 0xf80, 0xfff, 0x1000, 0xffff];

/// Places that are past every length, among them those of which the low 32 bits are not.
fn far(length: u64) -> impl Iterator<Item = u64> {
    let low = (0..=7 + 6).chain(length.saturating_sub(7)..=length + 1);
    let second = low.flat_map(|place| [place | 1 << 32, place | 1 << 63]);
    let last = (0..16).map(|back| u64::MAX - back);
    let about = [1 << 31, 1 << 32, 1 << 63]
        .into_iter()
        .flat_map(|place: u64| place - 7..place + 1);
    second.chain(last).chain(about)
}

/// From every place to the end or to 10, and at places that are far past the length.
fn every_way(bench: &mut Bench, bytes: &[u8]) -> Result<(), Difference> {
    let length = bytes.len() as u64;
    for place in 0..=length + 8 {
        walk(bench, bytes, place)?;
    }
    for place in far(length) {
        step(bench, bytes, place)?;
    }
    Ok(())
}

/// Every place alone, and one way from byte 7.
fn every_step(bench: &mut Bench, bytes: &[u8]) -> Result<(), Difference> {
    let length = bytes.len() as u64;
    for place in (0..=length + 8).chain(far(length)) {
        step(bench, bytes, place)?;
    }
    walk(bench, bytes, 7).map(|_| ())
}

/// Every kind with every value and row at a border, at the first place, after a head and at the end of some bytes.
fn every_entry(bench: &mut Bench) -> Result<(), Difference> {
    let values = VALUES.iter().flat_map(|value| ROWS.map(|row| (*value, row)));
    for ((value, row), kind) in values.flat_map(|each| (0..=0xff).map(move |kind: u8| (each, kind))) {
        let value = value.to_le_bytes();
        let entry = [&row.to_le_bytes()[..], &[kind], &value[..3]].concat();
        step(bench, &entry, 0)?;
        step(bench, &[&[0x4f, 0x54, 0x4a, 1, 0, 1, 0], &entry[..]].concat(), 7)?;
        step(bench, &[&[1], &entry[..], &[1]].concat(), 1)?;
    }
    Ok(())
}

/// Bytes of every length, of which many or none are entries, from every place.
fn every_length(bench: &mut Bench) -> Result<(), Difference> {
    for length in 0..=32 {
        for byte in [0, 1, 2, 0xff] {
            every_way(bench, &vec![byte; length])?;
        }
    }
    Ok(())
}

/// Makes all these calls. Each kind of place must have come up.
pub fn every_place(bench: &mut Bench) -> Result<(), Difference> {
    every_entry(bench)?;
    every_length(bench)?;
    for file in files() {
        every_way(bench, &file)?;
    }
    for file in longest() {
        every_step(bench, &file)?;
    }
    match bench.places.missing() {
        Some(kind) => Err(Difference(format!("no place in a job's bytes was {kind}"))),
        None => Ok(()),
    }
}
