//! Request 2026-11 on the model alone, its sentences written out: which rows a repair pass mends, what its report says, when it is refused, and
//! what it leaves.

use compare::call::{Call, Chip};
use compare::model::Model;
use compare::shape::{Answer, Beside, State, ROWS, SECURE};

thread_local! {
    static MODEL: Model = Model::sound();
}

/// What a report holds before.
const OLD: u32 = 0xa5a5_a5a5;

/// Document 01's row of 0x5053, as it is burnt plain and inverted.
const PLAIN: u32 = 0x22_5053;
const INVERTED: u32 = 0xdd_afac;

/// A pass over these listed rows with a report of so many entries: the answer, and what it leaves of the rows, the state and the report.
fn pass(rows: &[u32], state: State, list: &[u32], room: usize) -> (Answer, Vec<u32>, State, Vec<u32>) {
    let call = Call::Repair {
        report: vec![OLD; room],
        list: list.to_vec(),
    };
    let mut rows = rows.to_vec();
    let made = MODEL.with(|model| model.make(&call, &mut rows, state));
    match made.beside {
        Beside::Report(report) => (made.answer, rows, made.state, report),
        _ => panic!("a pass gives the report back"),
    }
}

/// A refusal says its number alone, and leaves all rows, the state and the report.
fn refused(rows: &[u32], state: State, list: &[u32], room: usize, number: u32) {
    let left = (Answer::refused(number), rows.to_vec(), state, vec![OLD; room]);
    assert_eq!(pass(rows, state, list, room), left);
}

/// A blank image but for these rows.
fn image(rows: &[(usize, u32)]) -> Vec<u32> {
    let mut image = vec![0; ROWS];
    for (row, entry) in rows {
        image[*row] = *entry;
    }
    image
}

/// What the report says of a row, and what becomes of it.
fn told(entry: u32) -> (u32, u32) {
    let (answer, rows, _, report) = pass(&image(&[(7, entry)]), State::blank(), &[7], 1);
    assert_eq!(answer, Answer::burnt(0, (rows[7] ^ entry).count_ones()));
    (report[0], rows[7])
}

/// A state with a page's Secure level.
fn locked(page: usize, level: u8) -> State {
    let mut state = State::blank();
    state.secure[page] = level;
    state
}

#[test]
fn a_lost_1_is_mended_in_either_polarity_and_a_1_too_many_is_worn() {
    for right in [PLAIN, INVERTED] {
        assert_eq!(told(right), (0, right));
        for place in 0..22 {
            let entry = right ^ 1 << place;
            match right >> place & 1 {
                1 => assert_eq!(told(entry), (1 + 256 * place, right)),
                _ => assert_eq!(told(entry), (2, entry)),
            }
        }
    }
}

#[test]
fn a_row_whose_flag_bits_disagree_is_worn_or_damaged_and_never_mended() {
    for flag in [0x40_0000, 0x80_0000] {
        assert_eq!(told(PLAIN ^ flag), (2, PLAIN ^ flag));
        assert_eq!(told(PLAIN ^ flag ^ 1), (2, PLAIN ^ flag ^ 1));
        assert_eq!(told(PLAIN ^ flag ^ 4), (2, PLAIN ^ flag ^ 4));
        assert_eq!(told(INVERTED ^ flag), (3, INVERTED ^ flag));
        assert_eq!(told(PLAIN ^ flag ^ 3), (3, PLAIN ^ flag ^ 3));
    }
}

#[test]
fn two_lost_bits_are_damaged_and_a_blank_row_is_clean() {
    assert_eq!(told(PLAIN ^ 3), (3, PLAIN ^ 3));
    assert_eq!(told(INVERTED ^ 0xc), (3, INVERTED ^ 0xc));
    assert_eq!(told(0), (0, 0));
    assert_eq!(told(0xff_ffff), (0, 0xff_ffff));
    // A blank row with a stray bit has a 1 too many, and a full row that lost one has it mended.
    assert_eq!(told(1), (2, 1));
    assert_eq!(told(0xff_fffe), (1, 0xff_ffff));
}

#[test]
fn not_permitted_is_said_first_of_any_row_that_secure_may_not_write() {
    let entries = [PLAIN, PLAIN ^ 1, PLAIN ^ 4, PLAIN ^ 0x40_0000, PLAIN ^ 3, 0, 0x100_0000];
    for (entry, level) in entries.iter().flat_map(|entry| [1, 2, 255].map(|level| (entry, level))) {
        let rows = image(&[(64, *entry)]);
        let state = locked(1, level);
        assert_eq!(
            pass(&rows, state, &[64], 1),
            (Answer::burnt(0, 0), rows, state, vec![4])
        );
    }
}

#[test]
fn it_runs_as_secure() {
    let rows = image(&[(64, PLAIN ^ 1)]);
    let mut state = State::blank();
    (state.nonsecure[1], state.bootloader[1]) = (2, 2);
    assert_eq!(pass(&rows, state, &[64], 1).0, Answer::burnt(0, 1));
    state.writekey[1] = 1;
    assert_eq!(pass(&rows, state, &[64], 1).3, [4]);
}

#[test]
fn the_report_has_an_entry_for_each_row_and_keeps_those_past_the_list() {
    let rows = image(&[
        (1, PLAIN),
        (2, PLAIN ^ 0x20_0000),
        (3, PLAIN ^ 4),
        (4, PLAIN ^ 3),
        (64, 0),
        (0xf3f, 0xff_fffe),
    ]);
    let (answer, left, _, report) = pass(&rows, locked(1, 1), &[1, 2, 3, 4, 64, 0xf3f], 8);
    assert_eq!(answer, Answer::burnt(0, 2));
    assert_eq!(report, [0, 1 + 256 * 21, 2, 3, 4, 1, OLD, OLD]);
    let mut mended = rows.clone();
    (mended[2], mended[0xf3f]) = (PLAIN, 0xff_ffff);
    assert_eq!(left, mended);
}

#[test]
fn an_empty_list_is_done() {
    let rows = image(&[(1, PLAIN ^ 1), (2, u32::MAX)]);
    for room in [0, 3] {
        let done = (Answer::burnt(0, 0), rows.clone(), State::blank(), vec![OLD; room]);
        assert_eq!(pass(&rows, State::blank(), &[], room), done);
    }
}

#[test]
fn a_mended_row_reads_clean_with_the_value_of_before_and_a_second_pass_mends_nothing() {
    let rows = image(&[(1, PLAIN ^ 1), (2, INVERTED ^ 4), (3, PLAIN ^ 4)]);
    let (answer, mended, state, _) = pass(&rows, State::blank(), &[1, 2, 3], 3);
    assert_eq!(answer.pulses, 2);
    for row in [1, 2] {
        let call = Call::ReadEcc { caller: SECURE, row };
        let read = |rows: &[u32]| MODEL.with(|model| model.make(&call, &mut rows.to_vec(), state)).answer;
        let clean = Answer {
            condition: 0,
            bit: 0,
            ..read(&rows)
        };
        assert_eq!(read(&mended), clean);
        assert_eq!(clean.value, 0x5053);
    }
    let again = (Answer::burnt(0, 0), mended.clone(), state, vec![0, 0, 2]);
    assert_eq!(pass(&mended, state, &[1, 2, 3], 3), again);
}

#[test]
fn the_list_rises_and_stays_below_0xf40() {
    let rows = image(&[(3, PLAIN ^ 1)]);
    for list in [
        &[0xf40][..],
        &[3, 0xfff],
        &[3, 3],
        &[4, 3],
        &[3, 5, 4],
        &[0x1_0003],
        &[u32::MAX, 3],
        &[3, 0x1000],
    ] {
        refused(&rows, State::blank(), list, 9, 11);
    }
    assert_eq!(pass(&rows, State::blank(), &[3, 0xf3f], 2).0, Answer::burnt(0, 1));
    let all: Vec<u32> = (0..0xf40).collect();
    assert_eq!(pass(&rows, State::blank(), &all, 0xf40).0, Answer::burnt(0, 1));
    refused(&rows, State::blank(), &all, 0xf3f, 12);
}

/// One pass for all, from which the ground of each refusal is taken away in turn: the number that is left is the next.
#[test]
fn the_first_of_the_refusals_1_11_12_3_is_given() {
    let mut rows = image(&[(3, PLAIN ^ 1), (5, 0x100_0000), (64, 0x100_0000), (9, u32::MAX)]);
    let state = locked(1, 1);
    rows.push(0);
    refused(&rows, state, &[3, 5, 64, 64], 1, 1);
    rows.pop();
    refused(&rows, state, &[3, 5, 64, 64], 1, 11);
    refused(&rows, state, &[3, 5, 64], 2, 12);
    refused(&rows, state, &[3, 5, 64], 3, 3);
    rows[5] = 0xff_ffff;
    // What is oversized in a row that Secure may not write, or that is not listed, is no refusal.
    let (answer, _, _, report) = pass(&rows, state, &[3, 5, 64], 3);
    assert_eq!((answer, report), (Answer::burnt(0, 1), vec![1, 0, 4]));
}

#[test]
fn each_listed_rows_page_is_named_and_gains_what_was_burnt() {
    let rows = image(&[
        (1, PLAIN ^ 1),
        (2, INVERTED ^ 4),
        (64, PLAIN),
        (128, PLAIN ^ 1),
        (192, PLAIN ^ 1),
    ]);
    let mut state = locked(2, 1);
    state.tallies = [2000; 64];
    state.tallies[0] = 1535;
    let (answer, _, left, _) = pass(&rows, state, &[1, 2, 64, 128], 4);
    assert_eq!(answer, Answer::burnt(0, 2));
    let mut tallies = [2000; 64];
    tallies[..3].fill(1536);
    assert_eq!(left, State { tallies, ..state });
}
