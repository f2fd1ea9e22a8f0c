//! Repair passes with every ground for a refusal, border rows in every order, reports of every length about the list's, and tallies of every kind.

use crate::bench::{Bench, Difference};
use crate::code::Codes;
use crate::every_worn_row::{over, report};
use crate::form::DATA_END;
use crate::passed::Pass;
use crate::shape::{State, LARGEST, ROWS};
use crate::states::TALLIES;

/// Rows on both sides of the borders that a list has, and such as only the low bits make rows of.
const ROWS_TRIED: [u32; 14] = [
    0,
    1,
    0x3f,
    0x40,
    0xf3e,
    0xf3f,
    0xf40,
    0xf41,
    0xf7f,
    0xf80,
    0xfff,
    0x1000,
    0x1_0003,
    u32::MAX,
];

/// How many rows a list has: none, some, about a page, about 512, and about all.
const COUNTS: [usize; 12] = [0, 1, 2, 3, 63, 64, 65, 511, 512, 513, 3903, 3904];

/// A row of each sort, of one value: clean, a 1 lost, a 1 too many, in both polarities, a flag bit worn, a flag bit and another, damaged, blank.
pub fn sorts(codes: &Codes) -> [u32; 12] {
    let plain = codes.of(0x5053);
    let inverted = plain ^ LARGEST;
    [
        plain ^ 0x00_0001,
        plain,
        inverted ^ 0x00_0004,
        inverted,
        plain ^ 0x00_0004,
        inverted ^ 0x00_0001,
        plain ^ 0x40_0000,
        plain ^ 0x80_0000,
        plain ^ 0x80_0001,
        plain ^ 0x00_0021,
        inverted ^ 0x40_0000,
        0,
    ]
}

/// A pass over these rows, in which each of them that there is has a row of some sort.
pub fn listing(list: &[u32], sorts: &[u32]) -> Pass {
    let mut pass = over(&[]);
    for (place, row) in list.iter().enumerate() {
        if (*row as usize) < ROWS {
            pass.rows[*row as usize] = sorts[place % sorts.len()];
        }
    }
    pass.list = list.to_vec();
    pass.report = report(list.len() + 2);
    pass
}

/// A ground for a refusal, or none, put into a pass.
type Ground = fn(&mut Pass);

/// For 1, 11, 12 and 3. Of what is oversized, a row that is not listed and one of the page that is locked are no grounds.
const GROUNDS: [&[Ground]; 4] = [
    &[
        |_| {},
        |pass| pass.lent = ROWS - 1,
        |pass| pass.lent = ROWS + 1,
        |pass| pass.lent = 0,
    ],
    &[
        |_| {},
        |pass| pass.list.push(DATA_END),
        |pass| pass.list.insert(0, u32::MAX),
        |pass| pass.list.insert(2, pass.list[2]),
        |pass| pass.list.swap(3, 4),
        |pass| pass.list.swap(0, 4),
    ],
    &[
        |_| {},
        |pass| pass.report.truncate(pass.list.len()),
        |pass| pass.report.truncate(pass.list.len() - 1),
        |pass| pass.report.clear(),
    ],
    &[
        |_| {},
        |pass| pass.rows[2] = LARGEST + 1,
        |pass| pass.rows[0xf3f] = u32::MAX,
        |pass| pass.rows[65] = LARGEST + 1,
        |pass| pass.rows[66] = u32::MAX,
        |pass| pass.rows[3] = LARGEST + 1,
        |pass| (pass.rows[65], pass.rows[0x800]) = (u32::MAX, LARGEST + 1),
    ],
];

/// Each refusal with each: all choices of grounds, with page 1 locked.
fn every_refusal(bench: &mut Bench, sorts: &[u32]) -> Result<(), Difference> {
    let choices: usize = GROUNDS.iter().map(|grounds| grounds.len()).product();
    let mut state = State::blank();
    state.secure[1] = 1;
    state.tallies = [u16::MAX; 64];
    for mut choice in 0..choices {
        let mut pass = listing(&[2, 7, 64, 65, 0x800, 0xf3f], sorts);
        for grounds in GROUNDS.iter().rev() {
            grounds[choice % grounds.len()](&mut pass);
            choice /= grounds.len();
        }
        pass.twice(bench, state)?;
    }
    Ok(())
}

/// Border rows alone, in every ordered pair and in every ordered triple; and a long list with one row too high, or twice, at every place.
fn every_order(bench: &mut Bench, sorts: &[u32]) -> Result<(), Difference> {
    for one in ROWS_TRIED {
        listing(&[one], sorts).twice(bench, State::blank())?;
        for two in ROWS_TRIED {
            listing(&[one, two], sorts).twice(bench, State::blank())?;
            for three in ROWS_TRIED {
                listing(&[one, two, three], sorts).twice(bench, State::blank())?;
            }
        }
    }
    let good: Vec<u32> = (0..70).map(|place| 1 + 50 * place).collect();
    for place in 0..good.len() {
        for row in [0, good[place], good[place] - 1, DATA_END, u32::MAX] {
            let mut list = good.clone();
            list.insert(place, row);
            listing(&list, sorts).run(bench, State::blank())?;
        }
    }
    Ok(())
}

/// Lists of every count from the lowest rows, to the highest and spread, with reports about their length.
fn every_room(bench: &mut Bench, sorts: &[u32]) -> Result<(), Difference> {
    let end = DATA_END as usize;
    for count in COUNTS {
        for (first, step) in [(0, 1), (end - count, 1), (0, end / count.max(1))] {
            let list: Vec<u32> = (first as u32..).step_by(step.max(1)).take(count).collect();
            let mut pass = listing(&list, sorts);
            pass.cut(bench, &[0; 16], &[0, 1, count / 2, count])?;
            for room in [0, 1, count.saturating_sub(1), count, count + 1, count + 9, 2 * count] {
                pass.report = report(room);
                bench.load(&pass.rows);
                let number = bench.repair(ROWS, &pass.list, &mut pass.report.clone())?.number;
                pass.agree(
                    (number == 12) == (room < count),
                    "12 is for a report shorter than the list",
                )?;
            }
        }
    }
    Ok(())
}

/// Tallies of every kind before a pass, where a page is not named, gains nothing, gains one bit, two or 64.
fn every_tally(bench: &mut Bench, sorts: &[u32]) -> Result<(), Difference> {
    let lost = sorts[0];
    for (tally, gain) in TALLIES
        .into_iter()
        .flat_map(|tally| [0, 1, 2, 64].map(|gain| (tally, gain)))
    {
        let list: Vec<u32> = (64..128).chain([200]).collect();
        let mut pass = listing(&list, &sorts[1..2]);
        pass.rows[64..64 + gain].fill(lost);
        let mut state = State::blank();
        state.tallies = [tally; 64];
        pass.twice(bench, state)?;
        // A page that is locked is named too.
        state.secure[1] = 2;
        pass.twice(bench, state)?;
    }
    Ok(())
}

/// Makes all these calls.
pub fn every_list(bench: &mut Bench) -> Result<(), Difference> {
    let sorts = sorts(&Codes::new(None));
    every_refusal(bench, &sorts)?;
    every_order(bench, &sorts)?;
    every_room(bench, &sorts)?;
    every_tally(bench, &sorts)
}
