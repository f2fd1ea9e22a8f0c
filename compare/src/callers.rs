//! Every caller in every lock domain and at every level: each lock shown and advanced, a key entered, and rows read, voted,
//! written and burnt by a job under each choice of the three levels and of the key level.

use crate::bench::{Bench, Difference, BUFFER};
use crate::call::Call;
use crate::locks::{key_page, owner};
use crate::shape::{State, BOOTLOADER, CALLERS, LOCK_ROWS, NONSECURE, SECURE};
use crate::states::{set_keys, set_levels, with_keys};

/// The callers, which are the domains too, and numbers that are none. 258 is 2 in its lowest byte.
const ASKED: [u32; 6] = [SECURE, NONSECURE, BOOTLOADER, 3, 258, u32::MAX];

/// A page's write key, read key and no-key state, for key levels 0, 0, 1, 1 and 2: none, the entered key to write, the entered
/// key to read, and another key to write, which leaves the no-key state to say.
const KEYS: [(u8, u8, bool); 5] = [(0, 0, false), (1, 0, true), (0, 1, true), (2, 0, false), (2, 0, true)];

/// What every row holds before a call: 0 with its lowest bit flipped, over which the code of 1 fits.
const ENTRY: u32 = 1;

/// A row of page 3, and vote groups that begin before that page, lie in it, and end after it.
const ROW: u32 = 0x0c5;
const GROUPS: [u32; 3] = [0x0bf, ROW, 0x0ff];
/// Lock rows, low and high: of a word that takes page 62's keys, and of one that takes page 63's.
const LOCKS: [u32; 4] = [LOCK_ROWS + 6, LOCK_ROWS + 7, LOCK_ROWS + 80, LOCK_ROWS + 81];

/// One ECC entry: row 0x0c5, value 1.
const JOB: [u8; 13] = [
    0x4f, 0x54, 0x4a, 0x01, 0x00, 0x01, 0x00, 0xc5, 0x00, 0x00, 0x01, 0x00, 0x00,
];

/// Every choice of a page's three levels. 3 is more than there are, and counts as 2.
fn every_level() -> impl Iterator<Item = [u8; 3]> {
    (0..64).map(|choice| [choice % 4, choice / 4 % 4, choice / 16])
}

/// Levels of which no two neighbours are alike in any domain, so that one that is set or shown in the wrong place is seen.
fn mixed_levels() -> State {
    let mut state = with_keys(true);
    for page in 0..64 {
        let level = page as u8 % 3;
        set_levels(&mut state, page, [level, (level + 1) % 3, (level + 2) % 3]);
    }
    state
}

/// Each caller shows each domain of a page, and advances it from each present level to each asked one.
fn lock_calls(bench: &mut Bench, page: u32, state: &State) -> Result<(), Difference> {
    for caller in ASKED {
        for domain in ASKED {
            bench.state = *state;
            bench.call(&Call::Show { caller, domain, page })?;
            for level in 0..=3 {
                bench.state = *state;
                bench.call(&Call::Advance {
                    caller,
                    domain,
                    page,
                    level,
                })?;
            }
        }
    }
    Ok(())
}

/// Page 64 is one too many.
fn every_lock(bench: &mut Bench) -> Result<(), Difference> {
    for page in [0, 9, 63] {
        for levels in every_level() {
            let mut state = mixed_levels();
            set_levels(&mut state, page, levels);
            lock_calls(bench, page as u32, &state)?;
        }
    }
    lock_calls(bench, 64, &mixed_levels())
}

/// Each caller enters a key: of the right length, too short, too long.
fn every_key(bench: &mut Bench) -> Result<(), Difference> {
    for caller in ASKED {
        for length in [0, 15, 16, 17, 32] {
            for entered in [false, true] {
                bench.state = with_keys(entered);
                let key = (1..=length).collect();
                bench.call(&Call::EnterKey { caller, key })?;
            }
        }
    }
    Ok(())
}

/// The reads and writes of one row, and the vote that begins there.
fn row_calls(caller: u32, row: u32) -> [Call; 5] {
    [
        Call::ReadRaw { caller, row },
        Call::ReadEcc { caller, row },
        Call::ReadVote { caller, row, count: 3 },
        Call::WriteRaw { caller, row, value: 6 },
        Call::WriteEcc { caller, row, value: 1 },
    ]
}

/// Makes the call on a row that holds what every row does.
fn afresh(bench: &mut Bench, state: &State, row: u32, call: &Call) -> Result<(), Difference> {
    bench.state = *state;
    bench.put(row, ENTRY);
    bench.call(call).map(|_| ())
}

/// All that a caller can do at a data row and at lock rows where their pages have these levels and keys.
fn access(bench: &mut Bench, caller: u32, levels: [u8; 3], keys: (u8, u8, bool)) -> Result<(), Difference> {
    for row in [ROW].into_iter().chain(LOCKS) {
        let mut state = with_keys(true);
        set_levels(&mut state, owner(row), levels);
        set_keys(&mut state, key_page(None, row), keys);
        for call in row_calls(caller, row) {
            afresh(bench, &state, row, &call)?;
        }
        if row == ROW {
            for (row, count) in GROUPS.iter().flat_map(|row| [(*row, 3), (*row, 8)]) {
                afresh(bench, &state, ROW, &Call::ReadVote { caller, row, count })?;
            }
        }
    }
    Ok(())
}

/// A job and a rehearsal run as Secure, whatever the levels of the others are.
fn jobs(bench: &mut Bench, levels: [u8; 3], keys: (u8, u8, bool)) -> Result<(), Difference> {
    let mut state = with_keys(true);
    set_levels(&mut state, owner(ROW), levels);
    set_keys(&mut state, owner(ROW), keys);
    let job = JOB.to_vec();
    afresh(bench, &state, ROW, &Call::RunJob { job: job.clone() })?;
    afresh(bench, &state, ROW, &Call::Rehearse { limit: 1, job })
}

/// Makes all these calls.
pub fn every_caller(bench: &mut Bench) -> Result<(), Difference> {
    bench.load(&[ENTRY; BUFFER]);
    every_lock(bench)?;
    every_key(bench)?;
    for levels in every_level() {
        for keys in KEYS {
            for caller in 0..=CALLERS {
                access(bench, caller, levels, keys)?;
            }
            jobs(bench, levels, keys)?;
        }
    }
    Ok(())
}
