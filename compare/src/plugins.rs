//! What a plug-in can learn (request 2026-10): random lists of Non-secure calls, each list made on two chips that agree. Every answer is
//! the same on both, and after every call they agree again.

use crate::arguments;
use crate::bench::Difference;
use crate::call::{Call, Chip, Kind};
use crate::code::Codes;
use crate::pairs::Pair;
use crate::random::Random;
use crate::shape::{NONSECURE, ROWS};
use crate::two_chips::TwoChips;
use crate::unlike::Seen;

/// How many calls a list has.
const LIST: u64 = 100;

/// The caller of every call.
const CALLER: u32 = NONSECURE;

/// The numbers that each Non-secure call can give: all of the call's, but that a read's only 4 is for a caller that there is not.
pub fn to_a_plug_in(kind: &Kind) -> Vec<u32> {
    match kind.name {
        "read_raw" | "read_ecc" => kind.numbers.iter().copied().filter(|number| *number != 4).collect(),
        "read_card" | "read_vote" | "write_raw" | "write_ecc" | "advance" | "show" => kind.numbers.to_vec(),
        _ => Vec::new(),
    }
}

/// Makes so many calls. The pairs and arguments depend on the seed alone.
pub fn run(
    chips: &mut TwoChips,
    seen: &mut Seen,
    (codes, sound): (&Codes, &dyn Chip),
    calls: u64,
    seed: u64,
) -> Result<(), Difference> {
    let mut random = Random::new(seed);
    let end = chips.calls() + calls;
    while chips.calls() < end {
        let pair = Pair::draw(&mut random, codes, sound);
        chips.lay_out(&pair.boards);
        chips.agree("a pair as it was drawn")?;
        let [one, other] = chips.sides();
        seen.note(one, other);
        for _ in 0..LIST.min(end - chips.calls()) {
            let call = draw(&mut random, &pair);
            let lent = match call.takes_rows() {
                true => arguments::length(&mut random),
                false => ROWS,
            };
            chips.alike(&call, lent)?;
            chips.agree(&call.to_string())?;
        }
    }
    Ok(())
}

/// A row that differs, one at a border of what a plug-in knows, or any.
fn row(random: &mut Random, pair: &Pair) -> u32 {
    match random.below(8) {
        0..=2 if !pair.unlike.is_empty() => {
            let kind = random.below(pair.unlike.len() as u32) as usize;
            random.pick(&pair.unlike[kind])
        }
        3 if !pair.borders.is_empty() => random.pick(&pair.borders).wrapping_sub(random.below(2)),
        _ => arguments::row(random, &pair.image),
    }
}

/// A group's first row: the group often has such a row in it.
fn group(random: &mut Random, pair: &Pair) -> u32 {
    match random.below(4) {
        0 => arguments::group(random, &pair.image),
        1 if !pair.borders.is_empty() => random.pick(&pair.borders).wrapping_sub(random.below(8)),
        _ => row(random, pair).wrapping_sub(random.below(8)),
    }
}

/// Draws a Non-secure call.
fn draw(random: &mut Random, pair: &Pair) -> Call {
    let (caller, row, image) = (CALLER, row(random, pair), &pair.image);
    match random.below(21) {
        0..=3 => Call::ReadRaw { caller, row },
        4..=6 => Call::ReadEcc { caller, row },
        7..=10 => Call::ReadVote {
            caller,
            row: group(random, pair),
            count: arguments::count(random),
        },
        11..=13 => Call::WriteRaw {
            caller,
            row,
            value: arguments::raw_value(random),
        },
        14..=17 => Call::WriteEcc {
            caller,
            row,
            value: arguments::ecc_value(random, image),
        },
        18 => Call::ReadCard {},
        19 => Call::Advance {
            caller,
            domain: arguments::domain(random),
            page: arguments::page(random, image),
            level: arguments::level(random),
        },
        _ => Call::Show {
            caller,
            domain: arguments::domain(random),
            page: arguments::page(random, image),
        },
    }
}
