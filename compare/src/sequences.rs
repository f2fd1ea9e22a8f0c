//! Cut jobs: a job drawn and stopped part way, up to four times, with a reset and the same key after each, then run to its end.

use crate::arguments;
use crate::bench::{Bench, Difference};
use crate::code::Codes;
use crate::cuts::{Setting, Trial};
use crate::images::Image;
use crate::jobfiles;
use crate::random::Random;
use crate::spoilt;
use crate::states;

/// A sequence makes no more calls than this.
pub const MOST_CALLS: u64 = 20;

fn setting(random: &mut Random, codes: &Codes) -> Setting {
    let image = Image::new(random, codes, true);
    let before = states::by_hand(random, &image);
    let key = arguments::key(random, &image);
    let draft = jobfiles::draft(random, &image);
    let job = match random.once_in(12) {
        true => spoilt::file(random, &draft),
        false => draft.bytes(),
    };
    Setting {
        rows: image.rows,
        before,
        key,
        job,
    }
}

/// Lays out an image, runs a job uncut, then again with up to four cuts, and holds the two against each other.
pub fn cut(random: &mut Random, bench: &mut Bench, codes: &Codes) -> Result<(), Difference> {
    let setting = setting(random, codes);
    let mut trial = Trial::new(bench, &setting)?;
    for _ in 0..1 + random.below(4) {
        let limit = match (random.coin(), trial.left_to_locks(bench)) {
            (true, locks @ 1..) => trial.left - random.below(locks + 1),
            _ => limit(random, trial.left),
        };
        trial.part(bench, Some(limit))?;
        setting.begin(bench)?;
    }
    trial.part(bench, None)
}

/// A limit: none, one, few, anything up to what is left, just that, or more.
pub fn limit(random: &mut Random, left: u32) -> u32 {
    match random.below(10) {
        0 => 0,
        1 => 1,
        2 => random.below(8),
        3 => left,
        4 => left.saturating_sub(1),
        5 => left + 1,
        6 => random.pick(&[u32::MAX, u32::MAX - 1, 12_289, 0x8000_0000]),
        _ => random.below(left + 1),
    }
}
