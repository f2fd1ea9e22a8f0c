//! Request 2026-01 on the model alone, its sentences written out: what a chunk keeps, counts and notes, and what the end does. What a chunk
//! says early is in `early`.

use compare::call::{Call, Chip};
use compare::model::Model;
use compare::random::Random;
use compare::shape::{Answer, Beside, Lead, Note, Outcome, State, ROWS};

thread_local! {
    static MODEL: Model = Model::sound();
}

/// Two entries, of which the second is at 0x0c1: 19 bytes.
const FILE: [u8; 19] = [
    0x4f, 0x54, 0x4a, 0x01, 0x00, 0x02, 0x00, 0xc0, 0x00, 0x00, 0x01, 0x00, 0x00, 0xc1, 0x00, 0x01, 0x09, 0x00, 0x80,
];

fn make(call: &Call, rows: &mut [u32]) -> Outcome {
    MODEL.with(|model| model.make(call, rows, State::blank()))
}

/// Takes a chunk, and gives what it answers.
fn take(lead: &mut Lead, chunk: &[u8]) -> Answer {
    let (before, chunk) = (lead.clone(), chunk.to_vec());
    let made = make(&Call::TakeChunk { lead: before, chunk }, &mut []);
    let Beside::Lead(left) = made.beside else {
        panic!("a chunk gives note and area back")
    };
    *lead = left;
    made.answer
}

/// The early word of a chunk that is done.
fn word(lead: &mut Lead, chunk: &[u8]) -> u32 {
    let answer = take(lead, chunk);
    assert_eq!(answer, Answer::value(answer.value));
    answer.value
}

fn end(lead: &Lead, rows: &mut [u32]) -> Outcome {
    make(&Call::EndJob { lead: lead.clone() }, rows)
}

fn fresh(length: usize) -> Lead {
    Lead {
        note: Note::default(),
        area: vec![0xa5; length],
    }
}

fn note(counted: u32, least: u32, begun: &[u8]) -> Note {
    let mut part = [0; 8];
    part[..begun.len()].copy_from_slice(begun);
    Note { counted, least, part }
}

#[test]
fn the_note_after_each_byte() {
    let mut lead = fresh(3079);
    for (place, byte) in FILE.iter().enumerate() {
        assert_eq!(word(&mut lead, &[*byte]), 0);
        let counted = place as u32 + 1;
        let expected = match counted {
            0..=7 => note(counted, 0, &[]),
            8..=12 => note(counted, 0, &FILE[7..=place]),
            13 => note(13, 0x0c1, &[]),
            14..=18 => note(counted, 0x0c1, &FILE[13..=place]),
            _ => note(19, 0x0c2, &[]),
        };
        assert_eq!(lead.note, expected, "{counted} bytes");
        assert_eq!(lead.area[..=place], FILE[..=place]);
        assert!(lead.area[place + 1..].iter().all(|byte| *byte == 0xa5));
    }
}

#[test]
fn an_area_shorter_than_3079_bytes_is_12() {
    for (length, number) in [(0, 12), (7, 12), (3078, 12), (3079, 0), (3080, 0), (5000, 0)] {
        for chunk in [&[][..], &FILE] {
            let mut lead = fresh(length);
            lead.note = note(5, 3, &[1, 2]);
            let before = lead.clone();
            assert_eq!(take(&mut lead, chunk).number, number, "{length}");
            assert_eq!(lead == before, number == 12 || chunk.is_empty(), "{length}");
        }
    }
}

#[test]
fn the_count_goes_to_3080_and_the_bytes_to_3079() {
    let mut whole = fresh(4000);
    word(&mut whole, &[7; 5000]);
    assert_eq!(whole.note.counted, 3080);
    assert_eq!(whole.area, [vec![7; 3079], vec![0xa5; 921]].concat());
    for (counted, length, left) in [
        (3078, 1, 3079),
        (3079, 1, 3080),
        (3080, 1, 3080),
        (9999, 0, 3080),
        (u32::MAX, 9, 3080),
    ] {
        let mut lead = fresh(3079);
        lead.note.counted = counted;
        word(&mut lead, &vec![7; length]);
        assert_eq!(lead.note.counted, left, "{counted} and {length}");
        let stored = lead.area.iter().filter(|byte| **byte == 7).count();
        assert_eq!(stored, usize::from(counted == 3078), "{counted} and {length}");
    }
}

/// Head and counts are read in the area, an entry begun and the least row in the note, whoever put them there.
#[test]
fn any_note_is_believed_for_the_word_alone() {
    let mut lead = fresh(3079);
    lead.area[..19].copy_from_slice(&FILE);
    lead.note = note(15, 0x0c2, &[0xc2, 0, 9, 9, 9, 9, 9, 9]);
    assert_eq!(word(&mut lead, &[]), 0);
    assert_eq!(lead.note, note(15, 0x0c2, &[0xc2, 0, 9, 9, 9, 9, 9, 9]));
    assert_eq!(word(&mut lead, &[1, 1, 0]), 0);
    assert_eq!(lead.note, note(18, 0x0c2, &[0xc2, 0, 1, 1, 0]));
    assert_eq!(word(&mut lead, &[0]), 0);
    assert_eq!(lead.note, note(19, 0x0c3, &[]));
    assert_eq!(lead.area[13..19], [0xc1, 0, 1, 1, 0, 0]);
    lead.note.least = u32::MAX;
    lead.note.part = [9; 8];
    let mut rows = vec![0; ROWS];
    assert_eq!(end(&lead, &mut rows).answer, Answer::burnt(2, 5));
    assert_eq!((rows[0x0c0], rows[0x0c1], rows[0x0c2]), (0x23_0001, 1, 0));
}

#[test]
fn the_end_is_1_then_12_then_10_then_the_job_of_the_bytes_counted() {
    let lead = |length: usize, counted| {
        let mut lead = fresh(length);
        lead.area.iter_mut().zip(FILE).for_each(|(place, byte)| *place = byte);
        lead.note.counted = counted;
        lead
    };
    for (rows, length, counted, number) in [
        (ROWS - 1, 3078, 3080, 1),
        (ROWS + 1, 3079, 19, 1),
        (ROWS, 3078, 3080, 12),
        (ROWS, 3078, 19, 12),
        (ROWS, 0, 0, 12),
        (ROWS, 3079, 3080, 10),
        (ROWS, 9000, u32::MAX, 10),
        (ROWS, 3079, 3079, 10),
        (ROWS, 3079, 18, 10),
        (ROWS, 3079, 0, 10),
        (ROWS, 3079, 19, 0),
        (ROWS, 9000, 19, 0),
    ] {
        let mut rows = vec![0; rows];
        let before = rows.clone();
        let made = end(&lead(length, counted), &mut rows);
        assert_eq!(made.answer.number, number, "{length} bytes, {counted} counted");
        assert_eq!(rows == before && made.state == State::blank(), number != 0);
    }
}

#[test]
fn the_end_announced_again_is_the_same_job_again() {
    let mut lead = fresh(3079);
    word(&mut lead, &FILE);
    let mut rows = vec![0; ROWS];
    let (first, again) = (end(&lead, &mut rows), end(&lead, &mut rows));
    let mut run = vec![0; ROWS];
    let job = Call::RunJob { job: FILE.to_vec() };
    assert_eq!((first, again), (make(&job, &mut run), make(&job, &mut run)));
    assert_eq!(rows, run);
}

/// Any note, any area and any chunk: cut at any place, the two leave what the one does, and the first of them that has a word says it.
#[test]
fn two_chunks_are_one() {
    let mut random = Random::new(1);
    for _ in 0..20_000 {
        let bytes =
            |random: &mut Random, count: u32| -> Vec<u8> { (0..count).map(|_| random.number() as u8).collect() };
        let mut one = fresh(3079);
        one.area[..40].copy_from_slice(&bytes(&mut random, 40));
        one.area[3..7].copy_from_slice(&[
            random.below(4) as u8,
            0,
            random.pick(&[0, 1, 2, 3, 9]),
            random.pick(&[0, 0, 2]),
        ]);
        one.note.counted = random.pick(&[0, 3, 6, 7, 12, 18, 30, 3070, 3078]) + random.below(3);
        one.note.least = random.below(0x1_0000);
        one.note.part = [0; 8].map(|_| random.number() as u8);
        let count = random.below(30);
        let chunk = bytes(&mut random, count);
        let (first, second) = chunk.split_at(random.below(chunk.len() as u32 + 1) as usize);
        let mut two = one.clone();
        let whole = word(&mut one, &chunk);
        let words = [word(&mut two, first), word(&mut two, second)];
        assert_eq!(two, one);
        assert_eq!(whole, if words[0] != 0 { words[0] } else { words[1] });
    }
}
