//! Request 2026-01 on the model alone, its sentences written out: which word a chunk says early, by which of its bytes, and what the note keeps
//! once something was faulty.

use compare::call::{Call, Chip};
use compare::form::{Entry, ECC, RAW};
use compare::jobfiles::of_version;
use compare::model::Model;
use compare::shape::{Answer, Beside, Lead, Note, State};

thread_local! {
    static MODEL: Model = Model::sound();
}

/// Two entries, of which the second is at 0x0c1: 19 bytes.
const FILE: [u8; 19] = [
    0x4f, 0x54, 0x4a, 0x01, 0x00, 0x02, 0x00, 0xc0, 0x00, 0x00, 0x01, 0x00, 0x00, 0xc1, 0x00, 0x01, 0x09, 0x00, 0x80,
];

/// The early word of a chunk, which is done.
fn word(lead: &mut Lead, chunk: &[u8]) -> u32 {
    let (before, chunk) = (lead.clone(), chunk.to_vec());
    let call = Call::TakeChunk { lead: before, chunk };
    let made = MODEL.with(|model| model.make(&call, &mut [], State::blank()));
    let Beside::Lead(left) = made.beside else {
        panic!("a chunk gives note and area back")
    };
    *lead = left;
    assert_eq!(made.answer, Answer::value(made.answer.value));
    made.answer.value
}

/// Nothing taken yet.
fn fresh() -> Lead {
    Lead {
        note: Note::default(),
        area: vec![0xa5; 3079],
    }
}

/// A note without an entry begun.
fn note(counted: u32, least: u32) -> Note {
    let part = [0; 8];
    Note { counted, least, part }
}

const fn raw(row: u32, value: u32) -> Entry {
    Entry { row, kind: RAW, value }
}

const fn ecc(row: u32, value: u32) -> Entry {
    Entry { row, kind: ECC, value }
}

/// The words of a file that comes byte by byte, those that are not 0, each with its byte.
fn words(file: &[u8]) -> Vec<(usize, u32)> {
    let mut lead = fresh();
    let words = file.iter().map(|byte| word(&mut lead, &[*byte]));
    words.enumerate().filter(|(_, word)| *word != 0).collect()
}

/// Each byte of the mark by itself, the version and the count at their second byte, a byte past the count at once.
#[test]
fn the_head_and_the_length_are_said_at_their_byte() {
    assert_eq!(words(&FILE), []);
    for place in 0..3 {
        let mut file = FILE;
        file[place] ^= 1;
        assert_eq!(words(&file), [(place, 10)]);
    }
    for version in 0..=u16::MAX {
        let mut head = FILE[..7].to_vec();
        head[3..5].copy_from_slice(&version.to_le_bytes());
        let expected = if version == 1 || version == 2 {
            vec![]
        } else {
            vec![(4, 10)]
        };
        assert_eq!(words(&head), expected, "version {version}");
    }
    for count in 0..=u16::MAX {
        let mut head = FILE[..7].to_vec();
        head[5..7].copy_from_slice(&count.to_le_bytes());
        let expected = if count <= 512 { vec![] } else { vec![(6, 10)] };
        assert_eq!(words(&head), expected, "count {count}");
    }
    let longer = [&FILE[..], &[1, 2, 3]].concat();
    assert_eq!(words(&longer), [(19, 10), (20, 10), (21, 10)]);
}

/// A version, two entries, and the words with their bytes.
type Case = (u16, [Entry; 2], &'static [(usize, u32)]);

/// Each entry's fault at its last byte: its form before its row, and the row by the rule of the file's version.
#[test]
fn an_entry_is_said_at_its_last_byte() {
    let bad = Entry {
        row: 0xffff,
        kind: 2,
        value: 1,
    };
    let cases: [Case; 14] = [
        (1, [ecc(5, 0xffff), raw(6, 0xff_ffff)], &[]),
        (1, [ecc(5, 1), raw(5, 1)], &[(18, 11)]),
        (1, [ecc(5, 1), raw(4, 1)], &[(18, 11)]),
        (1, [ecc(0xf3f, 1), ecc(0xf40, 1)], &[(18, 11)]),
        (1, [ecc(5, 1), raw(0xf80, 1)], &[(18, 11)]),
        (1, [ecc(5, 0x1_0000), raw(6, 1)], &[(12, 10)]),
        (1, [bad, raw(6, 1)], &[(12, 10), (18, 11)]),
        (1, [raw(0xf40, 1), bad], &[(12, 11), (18, 10)]),
        (2, [ecc(5, 1), raw(0xf80, 1)], &[]),
        (2, [raw(0xf80, 1), raw(0xfff, 1)], &[]),
        (2, [ecc(5, 1), ecc(0xf80, 1)], &[(18, 11)]),
        (2, [raw(0xf80, 1), ecc(5, 1)], &[(18, 11)]),
        (2, [raw(0xf7f, 1), raw(0x1000, 1)], &[(12, 11), (18, 11)]),
        (3, [ecc(5, 1), raw(0xf80, 1)], &[(4, 10), (18, 11)]),
    ];
    for (version, list, expected) in cases {
        assert_eq!(
            words(&of_version(version, &list)),
            expected,
            "version {version}, {list:?}"
        );
    }
}

/// Of several faults in a chunk the first in the file's order, and nothing of it later.
#[test]
fn the_first_fault_of_a_chunk_and_nothing_sticks() {
    let bad = Entry {
        row: 9,
        kind: 2,
        value: 1,
    };
    for (list, first) in [([raw(0xf7f, 1), bad], 11), ([bad, raw(0xf7f, 1)], 10)] {
        let file = of_version(2, &list);
        let mut lead = fresh();
        assert_eq!(word(&mut lead, &file), first);
        assert_eq!(word(&mut lead, &[]), 0);
        assert_eq!(word(&mut lead, &[1]), 10);
        assert_eq!(word(&mut lead, &[]), 0);
    }
    let mut spoilt = FILE;
    spoilt[0] = 0;
    let mut lead = fresh();
    assert_eq!(word(&mut lead, &spoilt[..5]), 10);
    assert_eq!(word(&mut lead, &spoilt[5..]), 0);
}

/// Whatever was wrong with it an entry gives its row, and a byte past the count nothing.
#[test]
fn what_the_note_keeps_once_something_was_faulty() {
    let mut lead = fresh();
    word(
        &mut lead,
        &of_version(
            1,
            &[
                Entry {
                    row: 0x800,
                    kind: 9,
                    value: 1,
                },
                raw(3, 1),
            ],
        )[..13],
    );
    assert_eq!(lead.note, note(13, 0x801));
    assert_eq!(word(&mut lead, &[3, 0, 1, 0, 0, 0]), 11);
    assert_eq!(lead.note, note(19, 4));
    assert_eq!(word(&mut lead, &[3, 0]), 10);
    assert_eq!(lead.note, note(21, 4));
}
