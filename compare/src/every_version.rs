//! Jobs of every version over the rows on both sides of each border: each row alone, in every ordered pair and triple, run and rehearsed,
//! where nothing refuses an entry and where something does; and each lock row in a job, by the keys and levels that it goes by.

use crate::bench::{Bench, Difference, BUFFER};
use crate::call::Call;
use crate::form::{Entry, ECC, RAW};
use crate::jobfiles::of_version;
use crate::lock_rows::states;
use crate::shape::{State, LARGEST, LOCK_ROWS, PAGES, ROWS};
use crate::spoilt::VERSIONS;
use crate::states::set_keys;

/// The first and the last data row, key row and lock row, the first row that a chip has not, and the last that a file can name.
const BORDERS: [u32; 8] = [0, 0xf3f, 0xf40, 0xf7f, 0xf80, 0xfff, 0x1000, 0xffff];

/// Entries of both kinds; then those that make a file 10, of which no order makes an 11.
const GOOD: [(u8, u32); 2] = [(ECC, 1), (RAW, 0x01_0101)];
const BAD: [(u8, u32); 2] = [(ECC, 0x1_0000), (2, 1)];

/// What the border rows hold, Secure's level on every page, and whether pages 62 and 63 ask for a key: nothing in the way, then 7 for all,
/// 7 for lock rows alone, 3, and 9 for ECC.
const CHIPS: [(u32, u8, bool); 5] = [
    (0, 0, false),
    (0, 1, false),
    (0x23_0001, 0, true),
    (LARGEST + 1, 0, false),
    (3, 0, false),
];

/// Every border row with every one of these kinds.
fn entries(kinds: &[(u8, u32)]) -> Vec<Entry> {
    let of_row = |row: &u32| {
        let row = *row;
        kinds.iter().map(move |(kind, value)| Entry {
            row,
            kind: *kind,
            value: *value,
        })
    };
    BORDERS.iter().flat_map(of_row).collect()
}

/// Runs the job on each chip, and rehearses it without a pulse, to the first and to the end.
fn on_each_chip(bench: &mut Bench, version: u16, list: &[Entry]) -> Result<(), Difference> {
    let job = of_version(version, list);
    for (entry, level, keyed) in CHIPS {
        let mut state = State::blank();
        state.secure = [level; PAGES];
        for page in [62, 63] {
            set_keys(&mut state, page, (u8::from(keyed), 0, false));
        }
        let rehearsal = |limit| Call::Rehearse {
            limit,
            job: job.clone(),
        };
        for call in [
            Call::RunJob { job: job.clone() },
            rehearsal(0),
            rehearsal(1),
            rehearsal(u32::MAX),
        ] {
            lay_out(bench, entry);
            bench.state = state;
            bench.call(&call)?;
        }
    }
    Ok(())
}

fn lay_out(bench: &mut Bench, entry: u32) {
    for row in BORDERS.into_iter().filter(|row| *row < ROWS as u32) {
        bench.put(row, entry);
    }
}

/// No entry, and each entry alone, in every version and in numbers that are none.
fn alone(bench: &mut Bench) -> Result<(), Difference> {
    for version in VERSIONS {
        on_each_chip(bench, version, &[])?;
        for entry in entries(&[GOOD, BAD].concat()) {
            on_each_chip(bench, version, &[entry])?;
        }
    }
    Ok(())
}

/// Every ordered pair, in both versions and in the numbers next to them.
fn pairs(bench: &mut Bench) -> Result<(), Difference> {
    let entries = entries(&[GOOD, BAD].concat());
    for version in 0..=3 {
        for (one, other) in entries
            .iter()
            .flat_map(|one| entries.iter().map(move |other| (one, other)))
        {
            on_each_chip(bench, version, &[*one, *other])?;
        }
    }
    Ok(())
}

/// Every ordered triple of good kinds, in both versions, where nothing refuses an entry.
fn triples(bench: &mut Bench) -> Result<(), Difference> {
    let entries = entries(&GOOD);
    let count = entries.len();
    for version in [1, 2] {
        for choice in 0..count * count * count {
            let list = [choice / count / count, choice / count % count, choice % count].map(|place| entries[place]);
            lay_out(bench, 0);
            bench.state = State::blank();
            bench.call(&Call::RunJob {
                job: of_version(version, &list),
            })?;
        }
    }
    Ok(())
}

/// Each lock row after a data row of page 3, by the keys and levels of its own word and of pages 62 and 63.
fn lock_rows(bench: &mut Bench) -> Result<(), Difference> {
    let data = Entry {
        row: 0x0c0,
        kind: ECC,
        value: 1,
    };
    for word in 0..PAGES {
        for state in states(word) {
            for row in [LOCK_ROWS + 2 * word as u32, LOCK_ROWS + 2 * word as u32 + 1] {
                let job = of_version(
                    2,
                    &[
                        data,
                        Entry {
                            row,
                            kind: RAW,
                            value: 1,
                        },
                    ],
                );
                bench.put(data.row, 0);
                bench.put(row, 0);
                bench.state = state;
                bench.call(&Call::RunJob { job })?;
            }
        }
    }
    Ok(())
}

/// Makes all these calls.
pub fn every_version(bench: &mut Bench) -> Result<(), Difference> {
    bench.load(&[0; BUFFER]);
    alone(bench)?;
    pairs(bench)?;
    triples(bench)?;
    lock_rows(bench)
}
