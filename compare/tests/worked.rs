//! The model alone against document 01: its twelve worked rows, its two 'Run' lines, and what it says of any value.

use compare::call::{Call, Chip};
use compare::model::Model;
use compare::shape::{Answer, State, INVERTED, LARGEST, REPAIRED, ROWS};

const ROW: u32 = 0x0c0;
const JOB: [u8; 13] = [
    0x4f, 0x54, 0x4a, 0x01, 0x00, 0x01, 0x00, 0xc0, 0x00, 0x00, 0x01, 0x00, 0x00,
];

fn chip(entry: u32) -> Vec<u32> {
    let mut rows = vec![0; ROWS];
    rows[ROW as usize] = entry;
    rows
}

fn read(model: &Model, entry: u32) -> Answer {
    let call = Call::ReadEcc { caller: 0, row: ROW };
    model.make(&call, &mut chip(entry), State::blank()).answer
}

fn write(model: &Model, value: u32, entry: u32) -> (Answer, u32) {
    let mut rows = chip(entry);
    let call = Call::WriteEcc {
        caller: 0,
        row: ROW,
        value,
    };
    let outcome = model.make(&call, &mut rows, State::blank());
    assert_eq!(outcome.state, counted(outcome.answer.pulses));
    (outcome.answer, rows[ROW as usize])
}

/// What burning changes of a blank state: the tally of the row's page, by so many pulses.
fn counted(pulses: u32) -> State {
    let mut state = State::blank();
    state.tallies[3] = pulses as u16;
    state
}

fn clean(value: u32) -> Answer {
    Answer::value(value)
}

fn repaired(value: u32, bit: u32) -> Answer {
    Answer {
        condition: REPAIRED,
        bit,
        ..Answer::value(value)
    }
}

fn inverted(answer: Answer) -> Answer {
    Answer {
        polarity: INVERTED,
        ..answer
    }
}

fn whole_job() -> Call {
    Call::RunJob { job: JOB.to_vec() }
}

#[test]
fn the_twelve_worked_rows() {
    let model = Model::sound();
    assert_eq!(model.codes.of(0xffff), 0x1effff);
    assert_eq!(model.codes.of(0x8000), 0x158000);
    assert_eq!(read(&model, 0x230001), clean(1));
    assert_eq!(read(&model, 0x230000), repaired(1, 0));
    assert_eq!(read(&model, 0x000001), repaired(0, 0));
    assert_eq!(read(&model, 0x000003), Answer::refused(8));
    assert_eq!(read(&model, 0x160000), Answer::refused(8));
    assert_eq!(read(&model, 0xdcfffe), inverted(clean(1)));
    assert_eq!(read(&model, 0x9cfffe), Answer::refused(8));
    assert_eq!(write(&model, 1, 0x000002), (Answer::burnt(0, 19), 0xdcfffe));
    assert_eq!(write(&model, 1, 0x000003), (Answer::refused(9), 0x000003));
    assert_eq!(write(&model, 3, 0x230001), (Answer::refused(9), 0x230001));
}

#[test]
fn the_job_on_a_blank_page_makes_four_pulses() {
    let model = Model::sound();
    let mut rows = chip(0);
    let outcome = model.make(&whole_job(), &mut rows, State::blank());
    assert_eq!(outcome.answer, Answer::burnt(1, 4));
    assert_eq!(outcome.state, counted(4));
    assert_eq!(rows, chip(0x230001));
}

#[test]
fn cut_after_two_pulses_and_run_again() {
    let model = Model::sound();
    let mut rows = chip(0);
    let rehearsal = Call::Rehearse {
        limit: 2,
        job: JOB.to_vec(),
    };
    let cut = model.make(&rehearsal, &mut rows, State::blank());
    assert_eq!(cut.answer, Answer::burnt(0, 2));
    assert_eq!(rows, chip(0x010001));
    let reset = model.make(&Call::Reset {}, &mut rows, cut.state);
    assert_eq!(reset.answer, Answer::default());
    let full = model.make(&whole_job(), &mut rows, reset.state);
    assert_eq!(full.answer, Answer::burnt(1, 2));
    assert_eq!(rows, chip(0x230001));
}

#[test]
fn no_word_lies_near_two_values() {
    assert_eq!(Model::sound().codes.shared, 0);
}

/// The table of near values against the search that document 01 words: look at every value's code.
#[test]
fn the_table_is_the_search() {
    let model = Model::sound();
    let mut word: u32 = 1;
    for _ in 0..500 {
        word = word.wrapping_mul(0x0019_660d).wrapping_add(0x3c6e_f35f);
        let part = word >> 10;
        let found = (0..=0xffffu32).find(|value| (model.codes.of(*value) ^ part).count_ones() <= 1);
        let near = model.codes.near(part);
        assert_eq!(found, near.map(|near| u32::from(near.value)));
        if let (Some(value), Some(near)) = (found, near) {
            let bit = near.repaired.map_or(0, |place| 1 << place);
            assert_eq!(model.codes.of(value) ^ part, bit);
        }
    }
}

#[test]
fn one_flip_is_corrected_and_a_lost_polarity_bit_is_refused() {
    let model = Model::sound();
    for value in 0..=0xffff {
        let plain = model.codes.of(value);
        let inverted = plain ^ LARGEST;
        for row in [plain, inverted] {
            assert_eq!(
                model
                    .codes
                    .decode(row)
                    .map(|near| (u32::from(near.value), near.repaired)),
                Some((value, None))
            );
            for place in 0..22u8 {
                let near = model.codes.decode(row ^ 1 << place).expect("one flip is corrected");
                assert_eq!((u32::from(near.value), near.repaired), (value, Some(place)));
            }
        }
        for place in [22, 23] {
            let near = model
                .codes
                .decode(plain ^ 1 << place)
                .expect("a plain row takes no harm");
            assert_eq!((u32::from(near.value), near.repaired), (value, None));
            assert_eq!(model.codes.decode(inverted ^ 1 << place), None);
        }
    }
}

#[test]
fn at_most_one_bit_beforehand_is_never_refused() {
    let model = Model::sound();
    for value in 0..=0xffff {
        assert!(model.codes.polarity(value, 0).is_some());
        for place in 0..24 {
            let old = 1 << place;
            let new = model.codes.polarity(value, old).expect("one of the two fits");
            assert_eq!(new & old, old);
            assert_eq!(model.codes.decode(new).map(|near| u32::from(near.value)), Some(value));
        }
    }
}
