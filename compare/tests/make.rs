//! Request 2026-04 on the model alone, its sentences written out: what job is made of two images, when it is refused, and what running it gives.

use compare::call::{Call, Chip};
use compare::model::Model;
use compare::shape::{Answer, Beside, State, ROWS};

thread_local! {
    static MODEL: Model = Model::sound();
}

/// What is made of two images in an output of so many bytes, each of which is 0xa5 before.
fn make(present: &[u32], wanted: &[u32], room: usize) -> (Answer, Vec<u8>) {
    let call = Call::MakeJob {
        wanted: Some(wanted.to_vec()),
        out: vec![0xa5; room],
    };
    let made = MODEL.with(|model| model.make(&call, &mut present.to_vec(), State::blank()));
    assert_eq!(made.state, State::blank());
    match made.beside {
        Beside::Output(out) => (made.answer, out),
        _ => panic!("a maker gives the output back"),
    }
}

/// A refusal says its number alone, and leaves the output.
fn refused(present: &[u32], wanted: &[u32], room: usize, number: u32) {
    let made = make(present, wanted, room);
    assert_eq!(made, (Answer::refused(number), vec![0xa5; room]));
}

/// A blank image but for these rows.
fn image(rows: &[(usize, u32)]) -> Vec<u32> {
    let mut image = vec![0; ROWS];
    for (row, entry) in rows {
        image[*row] = *entry;
    }
    image
}

/// The image with so many rows, from a row on, burnt.
fn burnt(first: usize, count: usize) -> Vec<u32> {
    let mut image = image(&[]);
    image[first..first + count].fill(1);
    image
}

#[test]
fn the_bytes_of_a_job() {
    let present = image(&[
        (0x0c0, 0x01_0001),
        (0x123, 0x40_0000),
        (0xf3f, 0),
        (0xf48, 7),
        (0xfff, 9),
    ]);
    let mut wanted = present.clone();
    wanted[0x0c0] = 0x23_0001;
    wanted[0xf3f] = 0x80_0102;
    let job = [
        0x4f, 0x54, 0x4a, 0x01, 0x00, 0x02, 0x00, // the head: version 1, 2 entries
        0xc0, 0x00, 0x01, 0x01, 0x00, 0x23, // all of the wanted row, and not what it lacks
        0x3f, 0x0f, 0x01, 0x02, 0x01, 0x80,
    ];
    assert_eq!(make(&present, &wanted, 19), (Answer::value(19), job.to_vec()));
    let longer = [&job[..], &[0xa5; 5]].concat();
    assert_eq!(make(&present, &wanted, 24), (Answer::value(19), longer));
    refused(&present, &wanted, 18, 12);
    refused(&present, &wanted, 0, 12);
}

#[test]
fn equal_images_make_a_job_of_no_entries() {
    let full = vec![0xff_ffff; ROWS];
    let job = vec![0x4f, 0x54, 0x4a, 0x01, 0x00, 0x00, 0x00];
    for image in [image(&[]), image(&[(0xf80, 3), (5, 1)]), full] {
        assert_eq!(make(&image, &image, 7), (Answer::value(7), job.clone()));
        refused(&image, &image, 6, 12);
    }
}

#[test]
fn one_array_may_be_lent_for_both() {
    let call = Call::MakeJob {
        wanted: None,
        out: vec![0xa5; 7],
    };
    for (length, answer) in [(ROWS, Answer::value(7)), (ROWS - 1, Answer::refused(1))] {
        let made = MODEL.with(|model| model.make(&call, &mut vec![3; length], State::blank()));
        assert_eq!(made.answer, answer);
    }
}

#[test]
fn each_image_has_4096_entries_of_24_bits() {
    let whole = image(&[]);
    for length in [0, 1, ROWS - 1, ROWS + 1] {
        refused(&vec![0; length], &whole, 9, 1);
        refused(&whole, &vec![0; length], 9, 1);
        refused(&vec![0; length], &vec![0; length], 9, 1);
    }
    for row in [0, 0xf3f, 0xf40, 0xfff] {
        let large = image(&[(row, 0x100_0000)]);
        refused(&large, &whole, 9, 3);
        refused(&whole, &large, 9, 3);
        refused(&large, &large, 9, 3);
        let largest = image(&[(row, 0xff_ffff)]);
        assert_eq!(make(&largest, &largest, 9).0, Answer::value(7));
    }
}

#[test]
fn a_lost_bit_anywhere_is_13() {
    for row in [0, 0x0c0, 0xf3f, 0xf40, 0xf7f, 0xf80, 0xfff] {
        for (present, wanted) in [(1, 0), (0x80_0000, 0x40_0000), (3, 0xff_fffd), (0xff_ffff, 0xff_fffe)] {
            refused(&image(&[(row, present)]), &image(&[(row, wanted)]), 99, 13);
        }
    }
}

#[test]
fn a_row_from_0xf40_up_that_differs_is_11() {
    for row in [0xf40, 0xf41, 0xf7f, 0xf80, 0xfff] {
        refused(&image(&[]), &image(&[(row, 1)]), 99, 11);
    }
    assert_eq!(make(&image(&[]), &image(&[(0xf3f, 1)]), 99).0, Answer::value(13));
}

#[test]
fn at_most_512_rows_may_differ() {
    for first in [0, 0xf40 - 513] {
        let (answer, out) = make(&image(&[]), &burnt(first, 512), 3079);
        assert_eq!(answer, Answer::value(3079));
        assert_eq!(out[..7], [0x4f, 0x54, 0x4a, 0x01, 0x00, 0x00, 0x02]);
        refused(&image(&[]), &burnt(first, 512), 3078, 12);
        refused(&image(&[]), &burnt(first, 513), 9999, 14);
    }
    refused(&image(&[]), &burnt(0, 0xf40), 0, 14);
}

/// One pair for all, from which the ground of each refusal is taken away in turn: the number that is left is the next.
#[test]
fn the_first_of_the_refusals_1_3_13_11_14_12_is_given() {
    let mut present = image(&[(0xf3f, 4), (0xffe, 0x100_0000)]);
    let mut wanted = burnt(0, 600);
    wanted[0xfff] = 1;
    present.push(0);
    refused(&present, &wanted, 0, 1);
    present.pop();
    refused(&present, &wanted, 0, 3);
    present[0xffe] = 0;
    refused(&present, &wanted, 0, 13);
    wanted[0xf3f] = 4;
    refused(&present, &wanted, 0, 11);
    wanted[0xfff] = 0;
    refused(&present, &wanted, 0, 14);
    wanted[512..600].fill(0);
    refused(&present, &wanted, 0, 12);
    assert_eq!(make(&present, &wanted, 3079).0, Answer::value(3079));
}

#[test]
fn running_the_job_gives_the_wanted_image_or_7() {
    let present = image(&[(0x0c0, 0x01_0001), (0x800, 0xff), (0xf80, 1)]);
    let mut wanted = present.clone();
    wanted[0x0c0] = 0x23_0001;
    wanted[0x800] = 0xf0_00ff;
    let (answer, job) = make(&present, &wanted, 19);
    assert_eq!(answer.value, 19);
    let run = |state| {
        let mut rows = present.clone();
        let call = Call::RunJob { job: job.clone() };
        let made = MODEL.with(|model| model.make(&call, &mut rows, state));
        (made.answer, rows)
    };
    assert_eq!(run(State::blank()), (Answer::burnt(2, 6), wanted.clone()));
    let mut locked = State::blank();
    locked.secure[0x800 / 64] = 1;
    let answer = Answer {
        place: 1,
        ..Answer::refused(7)
    };
    assert_eq!(run(locked), (answer, present.clone()));
}
