//! Random places in random bytes: job files of both versions, sound, spoilt, cut short and too long, and bytes that are no job; from the first
//! entry, from any place, about the length and far past it. What is not refused with 10 when it is run is read to its end.

use crate::bench::{Bench, Difference};
use crate::call::Call;
use crate::code::Codes;
use crate::cuttings::{bytes, file};
use crate::images::Image;
use crate::random::Random;
use crate::shape::{State, AREA};
use crate::walked::{step, walk};

/// Bytes that are read make no more calls than this.
pub const MOST_CALLS: u64 = 640;
/// Longer bytes are seldom read all the way, and those that are longer than any job never.
const SHORT: usize = 120;
const LONGEST: usize = AREA + 12;

/// Bytes: a file, any bytes, none, or bytes of which many are entries at every place.
fn any_bytes(random: &mut Random, image: &Image) -> Vec<u8> {
    let length = random.below(48) as usize;
    match random.below(8) {
        0 if random.once_in(4) => Vec::new(),
        0 => bytes(random, length),
        1 => (0..length).map(|_| random.pick(&[0, 0, 1, 1, 2, 0x4f, 0xff])).collect(),
        2 => vec![random.pick(&[0, 1]); length],
        _ => file(random, image),
    }
}

/// A place: that of an entry, any, about the length, about the head, or one that 32 or 64 bits barely hold.
fn place(random: &mut Random, length: u32) -> u64 {
    let near = match random.below(8) {
        0 | 1 => 7 + 6 * random.below(length / 6 + 1),
        2 | 3 => random.below(length + 8),
        4 => (length + random.below(9)).saturating_sub(7),
        5 => random.below(9),
        _ => return far(random, length),
    };
    u64::from(near)
}

fn far(random: &mut Random, length: u32) -> u64 {
    let near = u64::from(random.below(length + 2));
    let high = u64::from(random.number()) << 32;
    match random.below(5) {
        0 => u64::MAX - u64::from(random.below(16)),
        1 => (1 << 32) + near,
        2 => high | near,
        3 => near.wrapping_sub(u64::from(length) + 1),
        _ => high | u64::from(random.number()),
    }
}

/// Runs the bytes as a job, and reads them from byte 7 on: without a 10 there are as many entries as the head says, and then the end.
fn whole(bench: &mut Bench, job: &[u8]) -> Result<(), Difference> {
    bench.state = State::blank();
    let ran = bench.call(&Call::RunJob { job: job.to_vec() })?;
    let walk = walk(bench, job, 7)?;
    let counted = |job: &[u8]| usize::from(job[5]) + 256 * usize::from(job[6]);
    let all = || walk.last.end == 1 && walk.entries.len() == counted(job);
    match ran.number == 10 || all() {
        true => Ok(()),
        false => Err(Difference(format!(
            "a job of {} bytes that is not refused with 10 is not read to its end",
            job.len()
        ))),
    }
}

/// Draws bytes, and reads them from byte 7 and from other places.
pub fn read(random: &mut Random, bench: &mut Bench, codes: &Codes) -> Result<(), Difference> {
    let image = Image::new(random, codes, true);
    bench.load(&image.rows);
    let job = any_bytes(random, &image);
    let short = job.len() <= SHORT;
    if short || (job.len() <= LONGEST && random.once_in(8)) {
        whole(bench, &job)?;
    }
    for _ in 0..1 + random.below(4) {
        let at = place(random, job.len() as u32);
        match short {
            true => walk(bench, &job, at).map(|_| ())?,
            false => step(bench, &job, at).map(|_| ())?,
        }
    }
    Ok(())
}
