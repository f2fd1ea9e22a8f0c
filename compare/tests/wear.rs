//! Request 2026-03 on the model alone: what an ECC read says of a row's polarity and of its flag bits, 23 and 22, and
//! that every other answer says plain and agreeing.

use compare::call::{Call, Chip};
use compare::every::every_read;
use compare::fault::Fault;
use compare::model::Model;
use compare::shape::{
    Answer, Key, State, CLEAN, FLAG_WORN, FLAG_WORN_REPAIRED, INVERTED, LARGEST, PLAIN, REPAIRED, ROWS,
};

const ROW: u32 = 0x0c0;
const READ: Call = Call::ReadEcc { caller: 0, row: ROW };

/// The model with a chip whose rows are blank but for one.
struct OneRow {
    model: Model,
    rows: Vec<u32>,
}

impl OneRow {
    fn new() -> OneRow {
        OneRow {
            model: Model::sound(),
            rows: vec![0; ROWS],
        }
    }

    fn call(&mut self, call: &Call, entry: u32) -> Answer {
        self.rows[ROW as usize] = entry;
        self.model.make(call, &mut self.rows, State::blank()).answer
    }

    fn read(&mut self, entry: u32) -> Answer {
        self.call(&READ, entry)
    }
}

/// A done read of a row with agreeing bits.
fn agreeing(value: u32, condition: u32, bit: u32, polarity: u32) -> Answer {
    Answer {
        condition,
        bit,
        polarity,
        ..Answer::value(value)
    }
}

/// A done read of a row with disagreeing bits.
fn disagreeing(value: u32, condition: u32, bit: u32) -> Answer {
    Answer {
        condition,
        bit,
        disagree: 1,
        ..Answer::value(value)
    }
}

#[test]
fn a_stray_flag_bit_is_worn_and_a_lost_one_is_refused() {
    let mut chip = OneRow::new();
    for (entry, answer) in [
        (0x230001, agreeing(1, CLEAN, 0, PLAIN)),
        (0x630001, disagreeing(1, FLAG_WORN, 0)),
        (0xa30001, disagreeing(1, FLAG_WORN, 0)),
        (0x630000, disagreeing(1, FLAG_WORN_REPAIRED, 0)),
        (0xa30101, disagreeing(1, FLAG_WORN_REPAIRED, 8)),
        (0xdcfffe, agreeing(1, CLEAN, 0, INVERTED)),
        (0xdcffff, agreeing(1, REPAIRED, 0, INVERTED)),
        (0x9cfffe, Answer::refused(8)),
        (0x5cfffe, Answer::refused(8)),
        (0xfffffc, Answer::refused(8)),
        (0x400003, Answer::refused(8)),
    ] {
        assert_eq!(chip.read(entry), answer, "{entry:#08x}");
    }
}

/// What is expected goes by how the row was made, and not by its bits.
#[test]
fn every_value_with_each_bit_flipped_and_with_a_flag_bit_too() {
    let mut chip = OneRow::new();
    for value in 0..=0xffff {
        let plain = chip.model.codes.of(value);
        for (row, polarity) in [(plain, PLAIN), (plain ^ LARGEST, INVERTED)] {
            assert_eq!(chip.read(row), agreeing(value, CLEAN, 0, polarity));
            for bit in 0..22 {
                assert_eq!(chip.read(row ^ 1 << bit), agreeing(value, REPAIRED, bit, polarity));
            }
        }
        for flag in [1 << 22, 1 << 23] {
            assert_eq!(chip.read(plain ^ flag), disagreeing(value, FLAG_WORN, 0));
            for bit in 0..22 {
                let row = plain ^ flag ^ 1 << bit;
                assert_eq!(chip.read(row), disagreeing(value, FLAG_WORN_REPAIRED, bit));
            }
            assert_eq!(chip.read(plain ^ LARGEST ^ flag), Answer::refused(8));
        }
    }
}

/// Two wrong bits are one more than a read can tell: such a row is read, as another value than it held.
#[test]
fn an_inverted_row_with_a_lost_flag_and_a_flipped_bit_passes_for_a_worn_plain_row() {
    let mut chip = OneRow::new();
    for value in 0..=0xffff {
        let inverted = chip.model.codes.of(value) ^ LARGEST;
        for flag in [1 << 22, 1 << 23] {
            for bit in 0..22 {
                let read = chip.read(inverted ^ flag ^ 1 << bit);
                assert_eq!((read.number, read.condition), (0, FLAG_WORN_REPAIRED));
                assert_ne!(read.value, value);
            }
        }
    }
}

#[test]
fn every_other_answer_says_plain_and_agreeing() {
    let mut chip = OneRow::new();
    let (caller, row) = (0, ROW);
    for entry in [0xdcfffe, 0x630001] {
        assert_eq!(chip.call(&Call::ReadRaw { caller, row }, entry), Answer::value(entry));
        let over = Call::WriteRaw { caller, row, value: 0 };
        assert_eq!(chip.call(&over, entry), Answer::burnt(0, 0));
    }
    let write = Call::WriteEcc { caller, row, value: 1 };
    assert_eq!(chip.call(&write, 0x000002), Answer::burnt(0, 19));
    let job = vec![0x4f, 0x54, 0x4a, 1, 0, 1, 0, ROW as u8, 0, 0, 1, 0, 0];
    assert_eq!(chip.call(&Call::RunJob { job }, 0x000002), Answer::burnt(1, 19));
    chip.rows[ROW as usize + 1..][..2].fill(0xdcfffe);
    let vote = Call::ReadVote { caller, row, count: 3 };
    assert_eq!(chip.call(&vote, 0xdcfffe), Answer::value(0xdcfffe));
}

/// The first key of a chip that holds a key of eight words, with some of its first row's bits flipped.
fn latched(words: [u16; 8], inverted: bool, flipped: u32) -> Key {
    let model = Model::sound();
    let mut rows = vec![0; ROWS];
    for (i, word) in words.iter().enumerate() {
        let plain = model.codes.of(u32::from(*word));
        rows[0xf48 + i] = if inverted { plain ^ LARGEST } else { plain };
    }
    rows[0xf48] ^= flipped;
    rows[0xf79] = 0x010101;
    let outcome = model.make(&Call::Reset {}, &mut rows, State::blank());
    assert_eq!(outcome.answer, Answer::default());
    outcome.state.keys[0]
}

#[test]
fn a_key_is_latched_by_its_values_alone() {
    let words = [1, 2, 3, 4, 5, 6, 7, 8];
    let key = Key {
        words,
        valid: true,
        whole: true,
    };
    for flipped in [0, 1 << 22, 1 << 23, 1 << 22 | 1 << 5] {
        assert_eq!(latched(words, false, flipped), key, "{flipped:#08x}");
    }
    assert_eq!(latched(words, true, 0), key);
    let mut lost = Key { whole: false, ..key };
    lost.words[0] = 0;
    for flipped in [1 << 22, 1 << 23] {
        assert_eq!(latched(words, true, flipped), lost, "{flipped:#08x}");
    }
}

#[test]
fn each_slip_of_a_read_is_found_among_all_reads() {
    let library = Model::sound();
    assert_eq!(every_read(&library, &Model::sound()).ok(), Some(1 << 24));
    for slip in [
        Fault::PolarityBit23,
        Fault::PolarityBit22,
        Fault::InvertedWorn,
        Fault::WornClean,
        Fault::WornRepaired,
        Fault::WornLosesBit,
        Fault::RefusalPolarity,
        Fault::RefusalDisagree,
    ] {
        assert!(every_read(&library, &Model::faulty(slip)).is_err(), "{slip:?}");
    }
}
