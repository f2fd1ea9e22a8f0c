//! Request 2026-09 on the model alone, its sentences written out: which job files of each version are taken, and which are 10 and 11.

use compare::call::{Call, Chip};
use compare::form::{Entry, ECC, RAW};
use compare::jobfiles::of_version;
use compare::model::Model;
use compare::shape::{Answer, Outcome, State, ROWS};

thread_local! {
    static MODEL: Model = Model::sound();
}

fn make(call: &Call, rows: &mut [u32], state: State) -> Outcome {
    MODEL.with(|model| model.make(call, rows, state))
}

fn blank() -> Vec<u32> {
    vec![0; ROWS]
}

const fn raw(row: u32, value: u32) -> Entry {
    Entry { row, kind: RAW, value }
}

const fn ecc(row: u32, value: u32) -> Entry {
    Entry { row, kind: ECC, value }
}

/// The number of a run, and of a rehearsal without a pulse, which is the same, on a blank chip without locks.
fn number(version: u16, list: &[Entry]) -> u32 {
    let job = of_version(version, list);
    let run = make(&Call::RunJob { job: job.clone() }, &mut blank(), State::blank());
    let rehearsed = make(&Call::Rehearse { limit: 0, job }, &mut blank(), State::blank());
    assert_eq!(
        run.answer.number, rehearsed.answer.number,
        "version {version}, {list:?}"
    );
    run.answer.number
}

/// The file, byte by byte: document 01's own with another version and a lock row after it.
#[test]
fn the_bytes_of_a_version_2_job() {
    let job = of_version(2, &[ecc(0x0c0, 1), raw(0xf87, 0x01_0101)]);
    assert_eq!(
        job,
        [
            0x4f, 0x54, 0x4a, 0x02, 0x00, 0x02, 0x00, 0xc0, 0x00, 0x00, 0x01, 0x00, 0x00, 0x87, 0x0f, 0x01, 0x01, 0x01,
            0x01
        ]
    );
}

#[test]
fn versions_other_than_1_and_2_are_10() {
    for version in 0..=u16::MAX {
        let taken = version == 1 || version == 2;
        assert_eq!(
            number(version, &[ecc(0x0c0, 1)]),
            if taken { 0 } else { 10 },
            "version {version}"
        );
    }
}

/// Row by row, in both kinds: version 1 ends at 0xf3f, version 2 has the raw lock rows too.
#[test]
fn which_rows_each_version_may_have() {
    for row in 0..0x1_0000 {
        let lock = (0xf80..=4095).contains(&row);
        let old = if row < 0xf40 { 0 } else { 11 };
        let raw_2 = if row < 0xf40 || lock { 0 } else { 11 };
        assert_eq!(number(1, &[ecc(row, 1)]), old, "row {row:#05x}");
        assert_eq!(number(1, &[raw(row, 1)]), old, "row {row:#05x}");
        assert_eq!(number(2, &[ecc(row, 1)]), old, "row {row:#05x}");
        assert_eq!(number(2, &[raw(row, 1)]), raw_2, "row {row:#05x}");
    }
}

#[test]
fn data_rows_first_then_lock_rows_each_rising() {
    let taken: [&[Entry]; 8] = [
        &[],
        &[ecc(0, 1)],
        &[ecc(0, 1), raw(1, 1)],
        &[raw(0xf80, 1)],
        &[raw(0xf80, 1), raw(0xf81, 1)],
        &[ecc(0xf3f, 1), raw(0xf80, 1)],
        &[ecc(0, 1), raw(0xfff, 1)],
        &[ecc(0, 1), raw(0xf3f, 1), raw(0xf80, 1), raw(0xfff, 1)],
    ];
    for list in taken {
        assert_eq!(number(2, list), 0, "{list:?}");
    }
    let refused: [&[Entry]; 12] = [
        // A data row after a lock row.
        &[raw(0xf80, 1), ecc(0, 1)],
        &[raw(0xfff, 1), raw(0xf3f, 1)],
        &[ecc(0, 1), raw(0xf80, 1), ecc(1, 1)],
        &[ecc(0, 1), raw(0xf80, 1), ecc(1, 1), raw(0xf81, 1)],
        // Rows that do not rise.
        &[ecc(1, 1), ecc(0, 1)],
        &[ecc(1, 1), ecc(1, 1)],
        &[raw(0xf81, 1), raw(0xf80, 1)],
        &[raw(0xf81, 1), raw(0xf81, 1)],
        // A row from 0xf40 to 0xf7f, one above 4,095, and an ECC entry at a lock row.
        &[ecc(0, 1), raw(0xf40, 1), raw(0xf80, 1)],
        &[ecc(0, 1), raw(0xf7f, 1), raw(0xf80, 1)],
        &[ecc(0, 1), raw(0xfff, 1), raw(0x1000, 1)],
        &[ecc(0, 1), ecc(0xf80, 1)],
    ];
    for list in refused {
        assert_eq!(number(2, list), 11, "{list:?}");
    }
}

#[test]
fn version_1_keeps_its_old_rule() {
    assert_eq!(number(1, &[ecc(0, 1), raw(0xf3f, 1)]), 0);
    for row in [0xf40, 0xf7f, 0xf80, 0xfff, 0x1000] {
        assert_eq!(number(1, &[ecc(0, 1), raw(row, 1)]), 11, "row {row:#05x}");
    }
    assert_eq!(number(1, &[ecc(1, 1), ecc(1, 1)]), 11);
}

/// What is 10 is so in both versions, and goes before any 11 that stands earlier in the file.
#[test]
fn ten_goes_before_eleven() {
    for version in [1, 2] {
        for bad in [
            ecc(2, 0x1_0000),
            Entry {
                row: 2,
                kind: 2,
                value: 1,
            },
        ] {
            for before in [raw(0xf7f, 1), raw(0x1000, 1), ecc(0xf80, 1), raw(0xf80, 1)] {
                assert_eq!(number(version, &[before, bad]), 10, "{before:?} {bad:?}");
            }
        }
        let most: Vec<Entry> = (0..512).map(|row| raw(row, 1)).collect();
        let many: Vec<Entry> = (0..513).map(|row| raw(row, 1)).collect();
        assert_eq!((number(version, &most), number(version, &many)), (0, 10));
    }
    let mut longer = of_version(2, &[ecc(0, 1), ecc(0xf80, 1)]);
    longer.push(0);
    let made = make(&Call::RunJob { job: longer }, &mut blank(), State::blank());
    assert_eq!(made.answer, Answer::refused(10));
}
