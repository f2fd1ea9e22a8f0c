//! Request 2026-09 on the model alone, its sentences written out: what a version 2 job burns, what its lock rows are judged by, and what is
//! left where it is cut before its first lock pulse and after it.

use compare::call::{Call, Chip};
use compare::form::{Entry, ECC, RAW};
use compare::jobfiles::of_version;
use compare::model::Model;
use compare::shape::{Answer, Key, Outcome, State, LARGEST, ROWS, SECURE};

thread_local! {
    static MODEL: Model = Model::sound();
}

fn make(call: &Call, rows: &mut [u32], state: State) -> Outcome {
    MODEL.with(|model| model.make(call, rows, state))
}

fn blank() -> Vec<u32> {
    vec![0; ROWS]
}

const fn raw(row: u32, value: u32) -> Entry {
    Entry { row, kind: RAW, value }
}

const fn ecc(row: u32, value: u32) -> Entry {
    Entry { row, kind: ECC, value }
}

/// Four pulses for the code of 1, three for the three copies of Secure read only on page 3, whose high lock row is 0xf87.
const LOCKING: [Entry; 2] = [ecc(0x0c0, 1), raw(0xf87, 0x01_0101)];
/// The same with Non-secure's level, which no job goes by.
const OPEN: [Entry; 2] = [ecc(0x0c0, 1), raw(0xf87, 0x04_0404)];

/// The two rows after so many pulses, for either job: bits are burnt upward, and the lock row comes last.
fn after(pulses: usize, lock_bit: u32) -> [u32; 2] {
    let data = [0, 0x00_0001, 0x01_0001, 0x03_0001, 0x23_0001];
    let lock = [0, 0x00_0001, 0x00_0101, 0x01_0101];
    [data[pulses.min(4)], lock[pulses.saturating_sub(4)] << lock_bit]
}

fn rehearsed(list: &[Entry], limit: u32, rows: &mut [u32], state: State) -> Outcome {
    let job = of_version(2, list);
    make(&Call::Rehearse { limit, job }, rows, state)
}

fn run(list: &[Entry], rows: &mut [u32], state: State) -> Outcome {
    make(
        &Call::RunJob {
            job: of_version(2, list),
        },
        rows,
        state,
    )
}

fn reset(rows: &mut [u32]) -> State {
    make(&Call::Reset {}, rows, State::blank()).state
}

#[test]
fn an_uncut_job_burns_data_and_lock_rows() {
    let mut rows = blank();
    let made = run(&LOCKING, &mut rows, State::blank());
    assert_eq!(made.answer, Answer::burnt(2, 7));
    assert_eq!([rows[0x0c0], rows[0xf87]], [0x23_0001, 0x01_0101]);
    assert_eq!(rows.iter().filter(|row| **row != 0).count(), 2);
    let mut tallied = State::blank();
    (tallied.tallies[3], tallied.tallies[62]) = (4, 3);
    assert_eq!(
        made.state, tallied,
        "nothing is latched, and lock rows count for page 62"
    );
}

/// Cut after each number of pulses, reset, and run again. From the second copy on, page 3 and its lock word are Secure's to read only.
#[test]
fn a_job_that_locks_its_own_lock_word() {
    for limit in 0..=7 {
        let mut rows = blank();
        let cut = rehearsed(&LOCKING, limit, &mut rows, State::blank());
        let place = [0, 0, 0, 0, 1, 1, 1, 2][limit as usize];
        assert_eq!(cut.answer, Answer::burnt(place, limit));
        assert_eq!([rows[0x0c0], rows[0xf87]], after(limit as usize, 0));
        let state = reset(&mut rows);
        let cut_rows = rows.clone();
        let again = run(&LOCKING, &mut rows, state);
        if limit < 6 {
            assert_eq!(again.answer, Answer::burnt(2, 7 - limit), "limit {limit}");
            assert_eq!([rows[0x0c0], rows[0xf87]], after(7, 0));
        } else {
            assert_eq!(again.answer, Answer::refused(7), "limit {limit}");
            assert_eq!((rows, again.state), (cut_rows, state));
        }
    }
}

#[test]
fn a_job_that_locks_nothing_it_goes_by_completes_from_any_cut() {
    for limit in 0..=7 {
        let mut rows = blank();
        rehearsed(&OPEN, limit, &mut rows, State::blank());
        assert_eq!([rows[0x0c0], rows[0xf87]], after(limit as usize, 2));
        let state = reset(&mut rows);
        let again = run(&OPEN, &mut rows, state);
        assert_eq!(again.answer, Answer::burnt(2, 7 - limit), "limit {limit}");
        assert_eq!([rows[0x0c0], rows[0xf87]], after(7, 2));
    }
}

/// Page 63's keys guard lock words 32 to 63. A key index burnt there refuses nothing in the same run, and after a reset the whole job,
/// at its first entry.
#[test]
fn a_lock_row_refuses_nothing_later_in_the_same_run() {
    let list = [raw(0xffe, 0x01_0101), raw(0xfff, 0x04_0404)];
    let mut rows = blank();
    let made = run(&list, &mut rows, State::blank());
    assert_eq!(made.answer, Answer::burnt(2, 6));
    let state = reset(&mut rows);
    assert_eq!(run(&list, &mut rows, state).answer, Answer::refused(7));
}

/// A state in which a page asks for key 1, which is entered or is not.
fn asking(page: usize, entered: bool) -> State {
    let mut state = State::blank();
    let words = [7; 8];
    state.keys[0] = Key {
        words,
        valid: true,
        whole: true,
    };
    state.writekey[page] = 1;
    if entered {
        state.entered = words;
    }
    state
}

fn refused_at(place: u32, number: u32) -> Answer {
    Answer {
        place,
        ..Answer::refused(number)
    }
}

/// Lock row 0xf86 is of word 3, which takes page 62's keys, and 0xfc0 of word 32, which takes page 63's; the data row is of page 3.
#[test]
fn a_lock_row_goes_by_the_keys_of_page_62_or_63() {
    let list = [ecc(0x0c0, 1), raw(0xf86, 1), raw(0xfc0, 1)];
    for (page, place) in [(3, 0), (62, 1), (63, 2)] {
        let none = run(&list, &mut blank(), asking(page, false));
        assert_eq!(none.answer, refused_at(place, 7), "page {page}");
        let entered = run(&list, &mut blank(), asking(page, true));
        assert_eq!(entered.answer, Answer::burnt(3, 6), "page {page}");
    }
    for page in [0, 32, 61] {
        assert_eq!(run(&list[..2], &mut blank(), asking(page, false)).answer.number, 0);
    }
}

#[test]
fn a_lock_row_goes_by_its_own_words_secure_level() {
    let list = [ecc(0x0c0, 1), raw(0xf88, 1), raw(0xf89, 1)];
    for (page, answer) in [
        (3, refused_at(0, 7)),
        (4, refused_at(1, 7)),
        (62, Answer::burnt(3, 6)),
        (5, Answer::burnt(3, 6)),
    ] {
        let mut state = State::blank();
        state.secure[page] = 1;
        assert_eq!(run(&list, &mut blank(), state).answer, answer, "page {page}");
    }
    let mut others = State::blank();
    (others.nonsecure, others.bootloader) = ([2; 64], [2; 64]);
    assert_eq!(run(&list, &mut blank(), others).answer, Answer::burnt(3, 6));
}

/// 7 goes before 3 at one entry, and an earlier entry's 3 or 9 before a later one's 7.
#[test]
fn entries_are_judged_in_order_lock_rows_among_them() {
    let list = [ecc(0x0c0, 1), raw(0xf88, 1)];
    let mut locked = State::blank();
    locked.secure[4] = 1;
    for (row, entry, state, answer) in [
        (0xf88, LARGEST + 1, State::blank(), refused_at(1, 3)),
        (0xf88, LARGEST + 1, locked, refused_at(1, 7)),
        (0x0c0, LARGEST + 1, locked, refused_at(0, 3)),
        (0x0c0, 3, locked, refused_at(0, 9)),
        (0xf88, 3, State::blank(), Answer::burnt(2, 4)),
    ] {
        let mut rows = blank();
        rows[row] = entry;
        let before = rows.clone();
        let made = run(&list, &mut rows, state);
        assert_eq!(made.answer, answer, "row {row:#05x} with {entry:#x}");
        assert!(made.answer.number == 0 || (rows == before && made.state == state));
    }
}

/// Lock rows may be written one by one as before.
#[test]
fn a_write_of_a_lock_row_is_as_it_was() {
    let (caller, row) = (SECURE, 0xf87);
    let made = make(&Call::WriteRaw { caller, row, value: 1 }, &mut blank(), State::blank());
    assert_eq!(made.answer, Answer::burnt(0, 1));
    let made = make(&Call::WriteEcc { caller, row, value: 1 }, &mut blank(), State::blank());
    assert_eq!(made.answer, Answer::refused(5));
}
