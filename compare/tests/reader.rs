//! Request 2026-04 on the model alone: what the reader hands over at each place of some bytes.

use compare::call::{Call, Chip};
use compare::model::Model;
use compare::shape::{Answer, Beside, Handed, State};

thread_local! {
    static MODEL: Model = Model::sound();
}

/// An ECC entry at 0x0c0 and a raw one at 0x1fc1: 19 bytes.
const FILE: [u8; 19] = [
    0x4f, 0x54, 0x4a, 0x01, 0x00, 0x02, 0x00, 0xc0, 0x00, 0x00, 0x01, 0x00, 0x00, 0xc1, 0x1f, 0x01, 0x09, 0x00, 0x80,
];

fn next(job: &[u8], at: u64) -> Handed {
    let job = job.to_vec();
    let made = MODEL.with(|model| model.make(&Call::NextEntry { at, job }, &mut [], State::blank()));
    match made.beside {
        Beside::Handed(handed) => {
            assert_eq!(made.answer, Answer::refused(handed.number));
            handed
        }
        _ => panic!("the reader hands something over"),
    }
}

fn entry(at: u64, row: u32, kind: u32, value: u32) -> Handed {
    Handed {
        at,
        number: 0,
        end: 0,
        row,
        kind,
        value,
    }
}

fn end(at: u64) -> Handed {
    Handed {
        at,
        end: 1,
        ..Handed::default()
    }
}

fn refused(at: u64) -> Handed {
    Handed {
        at,
        number: 10,
        ..Handed::default()
    }
}

#[test]
fn a_job_from_byte_7_to_its_end() {
    assert_eq!(next(&FILE, 7), entry(13, 0x0c0, 0, 1));
    assert_eq!(next(&FILE, 13), entry(19, 0x1fc1, 1, 0x80_0009));
    assert_eq!(next(&FILE, 19), end(19));
}

#[test]
fn at_or_past_the_length_is_the_end() {
    for at in [
        19,
        20,
        25,
        3080,
        u64::from(u32::MAX),
        1 << 32,
        (1 << 32) + 7,
        u64::MAX - 5,
        u64::MAX,
    ] {
        assert_eq!(next(&FILE, at), end(at));
    }
    for at in [0, 1, 7, u64::MAX] {
        assert_eq!(next(&[], at), end(at));
    }
}

#[test]
fn a_part_entry_is_10_and_stays() {
    for at in 14..19 {
        assert_eq!(next(&FILE, at), refused(at));
    }
    for length in 14..19 {
        assert_eq!(next(&FILE[..length], 13), refused(13));
    }
    for length in 1..6 {
        assert_eq!(next(&[1; 6][..length], 0), refused(0));
    }
}

/// The head is read as any other bytes: its third is the kind of an entry at 0, its fourth of one at 1, and so on.
#[test]
fn any_place_may_come_in() {
    assert_eq!(next(&FILE, 0), refused(0));
    assert_eq!(next(&FILE, 1), entry(7, 0x4a54, 1, 0x00_0200));
    assert_eq!(next(&FILE, 2), refused(2), "an ECC value of 0xc00002");
    assert_eq!(next(&FILE, 3), refused(3));
    assert_eq!(next(&FILE, 4), entry(10, 0x0200, 0, 0x00_00c0));
    assert_eq!(next(&FILE, 5), refused(5));
    assert_eq!(next(&FILE, 6), entry(12, 0xc000, 0, 0x00_0100));
    assert_eq!(next(&FILE, 12), refused(12));
}

#[test]
fn kinds_are_0_and_1() {
    for kind in 0..=255 {
        let bytes = [0xff, 0xff, kind, 1, 0, 0];
        let expected = match kind {
            0 | 1 => entry(6, 0xffff, u32::from(kind), 1),
            _ => refused(0),
        };
        assert_eq!(next(&bytes, 0), expected);
    }
}

#[test]
fn an_ecc_value_has_16_bits_and_a_raw_one_24() {
    for (value, fits) in [(0, true), (0xffff, true), (0x1_0000, false), (0xff_ffff, false)] {
        let [low, middle, high, _] = u32::to_le_bytes(value);
        let bytes = |kind| [2, 0, kind, low, middle, high];
        let ecc = if fits { entry(6, 2, 0, value) } else { refused(0) };
        assert_eq!(next(&bytes(0), 0), ecc);
        assert_eq!(next(&bytes(1), 0), entry(6, 2, 1, value));
    }
}

/// It reads no head, and judges neither rows nor their order.
#[test]
fn what_a_job_is_refused_for_by_its_head_or_rows_is_read() {
    let mut file = FILE;
    file[..7].fill(0xff);
    file[7..9].copy_from_slice(&[0xff, 0xff]);
    assert_eq!(next(&file, 7), entry(13, 0xffff, 0, 1));
    assert_eq!(next(&file, 13), entry(19, 0x1fc1, 1, 0x80_0009));
    let longer = [&FILE[..], &FILE[7..]].concat();
    assert_eq!(next(&longer, 19), entry(25, 0x0c0, 0, 1));
}
