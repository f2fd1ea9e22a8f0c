//! Request 2026-07 on the model alone, its sentences written out: what a reset fills the tallies with, what each call that burns leaves
//! on the pages that it names and on the others, and that nothing else touches them.

use compare::call::{Call, Chip};
use compare::form::Entry;
use compare::jobfiles::bytes;
use compare::model::Model;
use compare::shape::{Outcome, State, LARGEST, ROWS, SECURE};

/// A tally before, the bits newly set in its page, and the tally after.
const LEFT: [(u16, u32, u16); 14] = [
    (0, 0, 0),
    (0, 1, 1),
    (0, 24, 24),
    (1511, 24, 1535),
    (1512, 24, 1536),
    (1513, 24, 1536),
    (1535, 0, 1535),
    (1535, 1, 1536),
    (1536, 0, 1536),
    (1536, 24, 1536),
    (1537, 0, 1536),
    (65512, 24, 1536),
    (65535, 0, 1536),
    (65535, 1, 1536),
];

/// No tally is as high: so it is seen where one comes down that is not named.
const ABOVE: u16 = 40_000;

/// Rows 63 and 64 lie in two pages, and 200 and 201 in one.
const ENTRIES: [Entry; 4] = [
    raw(63, 0x00_000f),
    raw(64, 0x00_00ff),
    raw(200, 0x00_0003),
    raw(201, 0x00_0001),
];

/// The bits that each page of these gained, pages 0, 1 and 3, when so many pulses were spent.
const GAINED: [(u32, [u16; 3]); 9] = [
    (0, [0, 0, 0]),
    (1, [1, 0, 0]),
    (4, [4, 0, 0]),
    (5, [4, 1, 0]),
    (12, [4, 8, 0]),
    (13, [4, 8, 1]),
    (14, [4, 8, 2]),
    (15, [4, 8, 3]),
    (16, [4, 8, 3]),
];

const fn raw(row: u32, value: u32) -> Entry {
    Entry { row, kind: 1, value }
}

thread_local! {
    static MODEL: Model = Model::sound();
}

fn make(call: &Call, rows: &mut [u32], state: State) -> Outcome {
    MODEL.with(|model| model.make(call, rows, state))
}

fn write(row: u32, value: u32) -> Call {
    Call::WriteRaw {
        caller: SECURE,
        row,
        value,
    }
}

/// No lock, no key, and the same tally on every page.
fn all_at(tally: u16) -> State {
    State {
        tallies: [tally; 64],
        ..State::blank()
    }
}

/// The tallies of such a state, with those of some pages changed.
fn but(tally: u16, changed: &[(usize, u16)]) -> [u16; 64] {
    let mut tallies = [tally; 64];
    for (page, left) in changed {
        tallies[*page] = *left;
    }
    tallies
}

/// So many bits, the lowest.
fn low_bits(count: u32) -> u32 {
    ((1u64 << count) - 1) as u32
}

/// Row r has r % 25 bits, whatever bits those are.
#[test]
fn a_reset_counts_the_rows_of_each_page() {
    let mut rows: Vec<u32> = (0..ROWS as u32)
        .map(|row| low_bits(row % 25) << (24 - row % 25))
        .collect();
    let made = make(&Call::Reset {}, &mut rows, all_at(ABOVE));
    for (page, tally) in made.state.tallies.iter().enumerate() {
        let bits: usize = (64 * page..64 * page + 64).map(|row| row % 25).sum();
        assert_eq!(usize::from(*tally), bits, "page {page}");
    }
    let full = make(&Call::Reset {}, &mut vec![LARGEST; ROWS], all_at(ABOVE));
    assert_eq!(full.state.tallies, [1536; 64]);
}

#[test]
fn a_write_counts_for_its_row_and_for_no_lock_word() {
    for row in 0..ROWS as u32 {
        let mut rows = vec![0; ROWS];
        rows[row as usize] = 0x00_00f0;
        let made = make(&write(row, 0x00_0ff0), &mut rows, all_at(ABOVE));
        let page = row as usize / 64;
        assert_eq!(made.state.tallies, but(ABOVE, &[(page, 1536)]), "row {row:#05x}");
        let made = make(&write(row, 0x00_fff0), &mut rows, all_at(0));
        assert_eq!(made.state.tallies, but(0, &[(page, 4)]), "row {row:#05x}");
    }
}

#[test]
fn a_named_page_is_left_at_the_lesser_of_1536_and_old_plus_new() {
    for (old, new, left) in LEFT {
        let value = low_bits(new);
        let job = bytes(&[raw(70, value)]);
        for call in [
            write(70, value),
            Call::RunJob { job: job.clone() },
            Call::Rehearse { limit: new, job },
        ] {
            let made = make(&call, &mut vec![0; ROWS], all_at(old));
            assert_eq!(made.answer.pulses, new, "{call}");
            assert_eq!(made.state.tallies, but(old, &[(1, left)]), "{call} from {old}");
        }
    }
}

/// The code of 0 is no bit plain and all bits inverted, so over a stray bit an ECC write burns 23 more.
#[test]
fn an_ecc_write_counts_as_a_raw_one_does() {
    let (caller, row) = (SECURE, 70);
    let mut rows = vec![0; ROWS];
    rows[row as usize] = 1;
    let made = make(&Call::WriteEcc { caller, row, value: 0 }, &mut rows, all_at(1));
    assert_eq!(made.state.tallies, but(1, &[(1, 24)]));
    let again = make(&Call::WriteEcc { caller, row, value: 0 }, &mut rows, all_at(ABOVE));
    assert_eq!(again.state.tallies, but(ABOVE, &[(1, 1536)]));
}

/// Each page gets its own rows' bits, also of the entry that is cut; and all are named, however far the limit got.
#[test]
fn a_rehearsal_names_the_pages_of_all_its_entries() {
    let job = bytes(&ENTRIES);
    for (limit, gained) in GAINED {
        let call = Call::Rehearse {
            limit,
            job: job.clone(),
        };
        let made = make(&call, &mut vec![0; ROWS], all_at(5));
        let [first, second, third] = gained.map(|bits| 5 + bits);
        assert_eq!(
            made.state.tallies,
            but(5, &[(0, first), (1, second), (3, third)]),
            "{limit}"
        );
        let made = make(&call, &mut vec![0; ROWS], all_at(ABOVE));
        assert_eq!(
            made.state.tallies,
            but(ABOVE, &[(0, 1536), (1, 1536), (3, 1536)]),
            "{limit}"
        );
    }
}

#[test]
fn a_job_of_no_entry_names_no_page() {
    let made = make(&Call::RunJob { job: bytes(&[]) }, &mut vec![0; ROWS], all_at(ABOVE));
    assert_eq!((made.answer.number, made.state), (0, all_at(ABOVE)));
}

/// All calls leave the tallies as they were, where page 3 is locked, and give these numbers.
fn leaves_tallies(calls: &[(Call, u32)]) {
    for (call, number) in calls {
        let mut state = all_at(ABOVE);
        state.secure[3] = 1;
        let made = make(call, &mut vec![0; ROWS], state);
        assert_eq!(
            (made.answer.number, made.state.tallies),
            (*number, [ABOVE; 64]),
            "{call}"
        );
    }
}

/// The job is refused at its third entry.
#[test]
fn a_refusal_leaves_all_tallies() {
    let (caller, row) = (SECURE, 200);
    let job = bytes(&ENTRIES);
    leaves_tallies(&[
        (write(row, 1), 7),
        (Call::WriteEcc { caller, row, value: 1 }, 7),
        (write(row, LARGEST + 1), 4),
        (Call::RunJob { job: job.clone() }, 7),
        (Call::Rehearse { limit: 5, job }, 7),
        (Call::RunJob { job: vec![1, 2, 3] }, 10),
    ]);
    let refused = make(&Call::Reset {}, &mut vec![LARGEST + 1; ROWS], all_at(ABOVE));
    assert_eq!((refused.answer.number, refused.state), (3, all_at(ABOVE)));
}

#[test]
fn a_call_that_burns_nothing_leaves_all_tallies() {
    let (caller, row, page, domain) = (SECURE, 200, 3, SECURE);
    let level = 2;
    let key = vec![5; 16];
    leaves_tallies(&[
        (Call::ReadRaw { caller, row }, 0),
        (Call::ReadEcc { caller, row }, 0),
        (Call::ReadVote { caller, row, count: 3 }, 0),
        (Call::Show { caller, domain, page }, 0),
        (
            Call::Advance {
                caller,
                domain,
                page,
                level,
            },
            0,
        ),
        (Call::EnterKey { caller, key }, 0),
    ]);
}
