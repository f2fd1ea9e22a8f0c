//! Tallies of every kind before every call: each row written, jobs over page borders cut at every pulse, each row counted by a
//! reset, every page burnt full row by row, and the calls that burn nothing.

use crate::bench::{Bench, Difference, BUFFER};
use crate::call::Call;
use crate::form::Entry;
use crate::jobfiles::bytes;
use crate::recount::tallies_are_right;
use crate::shape::{State, LARGEST, LOCK_ROWS, PAGES, ROWS, SECURE};
use crate::states::TALLIES;

/// What a row that is written holds before: the code of 1, or nothing.
const ENTRIES: [u32; 2] = [0x23_0001, 0];

/// The rows of a job: the first and the last that one may have, both sides of page borders, two rows of a page of their own. Every
/// other one is written with ECC.
const JOB_ROWS: [u32; 11] = [0, 1, 62, 63, 64, 65, 127, 128, 1000, 0xf3e, 0xf3f];

/// No lock, and a tally of another kind on each page than on its neighbours. With so many turns each page has each kind.
fn of_every_kind(turn: usize) -> State {
    let mut state = State::blank();
    for (page, tally) in state.tallies.iter_mut().enumerate() {
        *tally = TALLIES[(page + turn) % TALLIES.len()];
    }
    state
}

/// Writes the row with ECC, with the bits of the same code, with none and with all.
fn writes(row: u32) -> [Call; 4] {
    let caller = SECURE;
    let raw = |value| Call::WriteRaw { caller, row, value };
    [
        Call::WriteEcc { caller, row, value: 1 },
        raw(ENTRIES[0]),
        raw(0),
        raw(LARGEST),
    ]
}

/// Each row written over each entry, from a tally of each kind. Those that are refused are among them: ECC at a lock row.
fn every_row(bench: &mut Bench) -> Result<(), Difference> {
    bench.load(&[0; BUFFER]);
    for turn in 0..TALLIES.len() {
        for row in 0..ROWS as u32 {
            for call in writes(row) {
                for entry in ENTRIES {
                    bench.state = of_every_kind(turn);
                    bench.put(row, entry);
                    bench.call(&call)?;
                }
            }
        }
    }
    Ok(())
}

/// Writes that are refused, in a page and in a lock word, from a tally of each kind: by their arguments, by a lock, and by an entry
/// that no row can hold.
fn refused_writes(bench: &mut Bench) -> Result<(), Difference> {
    for turn in 0..TALLIES.len() {
        for row in [0, 63, 64, 0xf3f, LOCK_ROWS - 1, LOCK_ROWS, 0xfc0, 0xfff, 0x1000] {
            for (level, entry, caller, value) in [
                (0, 0, 3, 1),
                (0, 0, SECURE, LARGEST + 1),
                (1, 0, SECURE, 1),
                (0, LARGEST + 1, SECURE, 1),
            ] {
                bench.state = of_every_kind(turn);
                bench.state.secure = [level; PAGES];
                bench.put(row, entry);
                bench.call(&Call::WriteRaw { caller, row, value })?;
                bench.call(&Call::WriteEcc { caller, row, value })?;
            }
            bench.put(row, 0);
        }
    }
    Ok(())
}

/// A job over these rows, every other entry with ECC.
fn job() -> Vec<u8> {
    let kinds = [(0, 0x5053), (1, 0xf0_0f3c)];
    let entry = |(row, (kind, value)): (&u32, (u8, u32))| Entry { row: *row, kind, value };
    let entries: Vec<Entry> = JOB_ROWS.iter().zip(kinds.into_iter().cycle()).map(entry).collect();
    bytes(&entries)
}

/// Lays the job's rows out blank, or every third of them as the job leaves it.
fn lay_out(bench: &mut Bench, finished: &[u32], partly: bool) {
    for (place, row) in JOB_ROWS.iter().enumerate() {
        let stands = partly && place % 3 == 0;
        bench.put(*row, if stands { finished[*row as usize] } else { 0 });
    }
}

/// The job, its rehearsals to each limit up to one pulse too many, and the same where an entry is refused, from tallies of each kind.
fn every_cut(bench: &mut Bench) -> Result<(), Difference> {
    bench.load(&[0; BUFFER]);
    bench.state = State::blank();
    let run = Call::RunJob { job: job() };
    let pulses = bench.call(&run)?.pulses;
    let finished = bench.rows().to_vec();
    for turn in 0..TALLIES.len() {
        for partly in [false, true] {
            for limit in 0..=pulses + 1 {
                lay_out(bench, &finished, partly);
                bench.state = of_every_kind(turn);
                bench.call(&Call::Rehearse { limit, job: job() })?;
            }
            lay_out(bench, &finished, partly);
            bench.state = of_every_kind(turn);
            bench.call(&run)?;
            for row in JOB_ROWS {
                lay_out(bench, &finished, partly);
                bench.put(row, LARGEST + 1);
                bench.state = of_every_kind(turn);
                bench.call(&run)?;
            }
        }
    }
    Ok(())
}

/// A reset of a chip that is blank but for one row: each row, with one bit of it burnt, with all, and with one too many, which is
/// refused.
fn every_row_counted(bench: &mut Bench) -> Result<(), Difference> {
    bench.load(&[0; BUFFER]);
    for row in 0..ROWS as u32 {
        for entry in [1 << (row % 24), LARGEST, LARGEST + 1] {
            bench.state = of_every_kind(row as usize);
            bench.put(row, entry);
            bench.call(&Call::Reset {})?;
        }
        bench.put(row, 0);
    }
    Ok(())
}

/// From a blank chip every row burnt whole, and once more, which burns nothing: each page's tally goes up to 1,536 and stays.
fn every_page_full(bench: &mut Bench) -> Result<(), Difference> {
    bench.load(&[0; BUFFER]);
    bench.state = of_every_kind(0);
    bench.call(&Call::Reset {})?;
    for row in (0..ROWS as u32).chain(0..ROWS as u32) {
        let call = Call::WriteRaw {
            caller: SECURE,
            row,
            value: LARGEST,
        };
        bench.call(&call)?;
        tallies_are_right(bench, &call.to_string())?;
    }
    bench.call(&Call::Reset {}).map(|_| ())
}

/// The calls that burn nothing, done.
fn burning_nothing(page: u32) -> [Call; 6] {
    let (caller, row, domain) = (SECURE, 64 * page, SECURE);
    [
        Call::ReadRaw { caller, row },
        Call::ReadEcc { caller, row },
        Call::ReadVote { caller, row, count: 3 },
        Call::Advance {
            caller,
            domain,
            page,
            level: 1,
        },
        Call::Show { caller, domain, page },
        Call::EnterKey {
            caller,
            key: (0..16).collect(),
        },
    ]
}

/// Each page's calls that burn nothing, from a tally of each kind.
fn every_other_call(bench: &mut Bench) -> Result<(), Difference> {
    bench.load(&[0; BUFFER]);
    for turn in 0..TALLIES.len() {
        for call in (0..PAGES as u32).flat_map(burning_nothing) {
            bench.state = of_every_kind(turn);
            bench.call(&call)?;
        }
    }
    Ok(())
}

/// Makes all these calls.
pub fn every_tally(bench: &mut Bench) -> Result<(), Difference> {
    every_row(bench)?;
    refused_writes(bench)?;
    every_cut(bench)?;
    every_row_counted(bench)?;
    every_page_full(bench)?;
    every_other_call(bench)
}
