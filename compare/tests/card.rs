//! Request 2026-12 on the model alone, its sentences written out: what a card is, when it is refused and with what, what its job is, and that it
//! reads back.

use compare::call::{Call, Chip};
use compare::model::Model;
use compare::shape::{Answer, Beside, Card, State, ROWS};

thread_local! {
    static MODEL: Model = Model::sound();
}

/// Where a card's rows begin.
const FIRST: usize = 0x0c0;
/// What an area holds before.
const OLD: u8 = 0xa5;

fn make(call: &Call, rows: &[u32], state: State) -> (Answer, Vec<u32>, Beside) {
    let mut rows = rows.to_vec();
    let made = MODEL.with(|model| model.make(call, &mut rows, state));
    (made.answer, rows, made.beside)
}

fn read_with(rows: &[u32], state: State) -> Card {
    match make(&Call::ReadCard {}, rows, state) {
        (answer, left, Beside::Card(card)) => {
            assert_eq!((answer, &left[..]), (Answer::refused(card.number), rows));
            card
        }
        _ => panic!("a card comes back"),
    }
}

fn read(rows: &[u32]) -> Card {
    read_with(rows, State::blank())
}

/// Rows that hold these numbers from 0x0c0 on.
fn rows(values: &[u32]) -> Vec<u32> {
    let mut rows = vec![0; ROWS];
    for (row, value) in rows[FIRST..].iter_mut().zip(values) {
        *row = MODEL.with(|model| model.codes.of(*value));
    }
    rows
}

/// A card that is read, or asked for.
fn card(version: u32, width: u32, height: u32, line: u32) -> Card {
    let number = 0;
    Card {
        number,
        version,
        width,
        height,
        line,
    }
}

/// What comes of the card with these numbers.
fn of(values: &[u32]) -> Card {
    read(&rows(values))
}

/// Asks for a card in an area of so many bytes: the answer, and the area.
fn write(asked: Card, room: usize) -> (Answer, Vec<u8>) {
    let call = Call::WriteCard {
        version: asked.version,
        width: asked.width,
        height: asked.height,
        line: asked.line,
        area: vec![OLD; room],
    };
    match make(&call, &[], State::blank()) {
        (answer, _, Beside::Output(area)) => (answer, area),
        _ => panic!("an area comes back"),
    }
}

fn not_written(asked: Card, room: usize, number: u32) {
    assert_eq!(write(asked, room), (Answer::refused(number), vec![OLD; room]));
}

#[test]
fn a_card_is_five_rows_and_version_2_has_a_sixth() {
    assert_eq!(of(&[0x5053, 0x4c, 1, 128, 64]), card(1, 128, 64, 128));
    assert_eq!(of(&[0x5053, 0x4c, 2, 128, 64, 256]), card(2, 128, 64, 256));
    // The mark's first row as document 01 has it worked out.
    assert_eq!(rows(&[0x5053])[FIRST], 0x22_5053);
}

#[test]
fn sizes_have_their_ranges() {
    for width in [1, 320] {
        assert_eq!(of(&[0x5053, 0x4c, 1, width, 240]), card(1, width, 240, width));
    }
    for width in [0, 321, 0x7fff, 0x8000, 0xffff] {
        assert_eq!(of(&[0x5053, 0x4c, 1, width, 240]), Card::refused(17));
    }
    for height in [0, 241, 0x8000, 0xffff] {
        assert_eq!(of(&[0x5053, 0x4c, 1, 320, height]), Card::refused(17));
    }
    for line in [300, 301, 1024] {
        assert_eq!(of(&[0x5053, 0x4c, 2, 300, 1, line]), card(2, 300, 1, line));
    }
    for line in [0, 299, 1025, 0x8000 + 300, 0xffff] {
        assert_eq!(of(&[0x5053, 0x4c, 2, 300, 1, line]), Card::refused(17));
    }
}

/// A width burnt inverted, and then plain on top.
#[test]
fn a_row_of_all_ones_reads_as_0_and_the_card_is_17() {
    let mut image = rows(&[0x5053, 0x4c, 1, 128, 64]);
    image[FIRST + 3] |= 0xff_ffff ^ image[FIRST + 3];
    assert_eq!(image[FIRST + 3], 0xff_ffff);
    assert_eq!(read(&image), Card::refused(17));
}

#[test]
fn a_version_1_card_ignores_its_sixth_row_and_answers_its_width() {
    let mut image = rows(&[0x5053, 0x4c, 1, 128, 64]);
    for sixth in [0, 1, 0x3f, 0x21, 0xff_ffff, 0x100_0000, u32::MAX] {
        image[FIRST + 5] = sixth;
        assert_eq!(read(&image), card(1, 128, 64, 128));
    }
}

#[test]
fn it_is_read_as_non_secure() {
    let image = rows(&[0x5053, 0x4c, 1, 128, 64]);
    let state = |set: fn(&mut State)| {
        let mut state = State::blank();
        set(&mut state);
        state
    };
    for open in [
        state(|state| (state.secure[3], state.bootloader[3]) = (2, 2)),
        state(|state| state.nonsecure[3] = 1),
        state(|state| (state.nonsecure[2], state.nonsecure[4]) = (2, 2)),
    ] {
        assert_eq!(read_with(&image, open), card(1, 128, 64, 128));
    }
    for shut in [
        state(|state| state.nonsecure[3] = 2),
        state(|state| (state.readkey[3], state.nokey[3]) = (1, true)),
    ] {
        assert_eq!(read_with(&image, shut), Card::refused(7));
    }
}

/// One card for all, from which the ground of each refusal is taken away in turn: the number that is left is the next.
#[test]
fn the_first_of_the_refusals_is_given() {
    let (damaged, large) = (0x00_0021, 0x100_0000);
    let mut state = State::blank();
    state.nonsecure[3] = 2;
    let mut image = rows(&[0x5054, 0x4c, 3, 0, 64]);
    let right = rows(&[0x5053, 0x4c, 2, 0, 64, 5]);
    (image[FIRST], image[FIRST + 1], image[FIRST + 4]) = (right[FIRST] ^ damaged, large, right[FIRST + 4] ^ damaged);
    image[FIRST + 5] = large;
    assert_eq!(read_with(&image[..ROWS - 1], state), Card::refused(1));
    assert_eq!(read_with(&image, state), Card::refused(7));
    assert_eq!(read(&image), Card::refused(8));
    image[FIRST] = rows(&[0x5054])[FIRST];
    assert_eq!(read(&image), Card::refused(3));
    image[FIRST + 1] = right[FIRST + 1];
    assert_eq!(read(&image), Card::refused(8));
    image[FIRST + 4] = right[FIRST + 4];
    assert_eq!(read(&image), Card::refused(15));
    image[FIRST] = right[FIRST];
    assert_eq!(read(&image), Card::refused(16));
    image[FIRST + 2] = right[FIRST + 2];
    assert_eq!(read(&image), Card::refused(3));
    image[FIRST + 5] = right[FIRST + 5];
    assert_eq!(read(&image), Card::refused(17));
    image[FIRST + 3] = rows(&[0, 0, 0, 5])[FIRST + 3];
    assert_eq!(read(&image), card(2, 5, 64, 5));
    image.push(0);
    assert_eq!(read(&image), Card::refused(1));
}

#[test]
fn one_flipped_bit_in_each_row_leaves_the_card() {
    let right = rows(&[0x5053, 0x4c, 2, 320, 240, 1024]);
    for place in 0..22 {
        let mut worn = right.clone();
        worn[FIRST..FIRST + 6].iter_mut().for_each(|row| *row ^= 1 << place);
        assert_eq!(read(&worn), card(2, 320, 240, 1024));
    }
}

#[test]
fn a_card_is_written_as_a_version_1_job_of_five_or_six_ecc_entries() {
    let head = |count| vec![0x4f, 0x54, 0x4a, 1, 0, count, 0];
    let five = [
        [0xc0, 0, 0, 0x53, 0x50, 0],
        [0xc1, 0, 0, 0x4c, 0, 0],
        [0xc2, 0, 0, 1, 0, 0],
        [0xc3, 0, 0, 0x40, 1, 0],
        [0xc4, 0, 0, 0xf0, 0, 0],
    ];
    let mut of_1 = [head(5), five.concat()].concat();
    let mut of_2 = [head(6), five.concat(), vec![0xc5, 0, 0, 0, 4, 0]].concat();
    of_2[7 + 2 * 6 + 3] = 2;
    assert_eq!((of_1.len(), of_2.len()), (37, 43));
    assert_eq!(write(card(1, 320, 240, 1024), 37), (Answer::value(37), of_1.clone()));
    assert_eq!(write(card(2, 320, 240, 1024), 43), (Answer::value(43), of_2.clone()));
    of_1.extend([OLD; 8]);
    of_2.extend([OLD; 2]);
    assert_eq!(write(card(1, 320, 240, u32::MAX), 45), (Answer::value(37), of_1));
    assert_eq!(write(card(2, 320, 240, 1024), 45), (Answer::value(43), of_2));
}

#[test]
fn what_is_asked_for_is_refused_with_16_then_17_then_12() {
    for version in [0, 3, 0x101, 0x1_0001, u32::MAX] {
        not_written(card(version, 0, 0, 0), 0, 16);
        not_written(card(version, 320, 240, 320), 45, 16);
    }
    for (width, height) in [
        (0, 1),
        (321, 1),
        (1, 0),
        (1, 241),
        (0x1_0001, 1),
        (1, 0x1_0001),
        (u32::MAX, 1),
    ] {
        not_written(card(1, width, height, width), 0, 17);
        not_written(card(2, width, height, 1024), 45, 17);
    }
    for line in [0, 299, 1025, 0x1_0400, u32::MAX] {
        not_written(card(2, 300, 1, line), 0, 17);
        not_written(card(2, 300, 1, line), 45, 17);
    }
    for room in 0..45 {
        let (one, two) = (card(1, 300, 1, 0), card(2, 300, 1, 300));
        match room {
            0..=36 => not_written(one, room, 12),
            _ => assert_eq!(write(one, room).0, Answer::value(37)),
        }
        match room {
            0..=42 => not_written(two, room, 12),
            _ => assert_eq!(write(two, room).0, Answer::value(43)),
        }
    }
}

#[test]
fn once_its_job_has_run_the_card_reads_back() {
    for (asked, back) in [
        (card(1, 128, 64, 7), card(1, 128, 64, 128)),
        (card(2, 128, 64, 256), card(2, 128, 64, 256)),
    ] {
        let (answer, area) = write(asked, 64);
        let job = area[..answer.value as usize].to_vec();
        let (run, burnt, _) = make(&Call::RunJob { job: job.clone() }, &[0; ROWS], State::blank());
        assert_eq!((run.number, read(&burnt)), (0, back));
        let (again, same, _) = make(&Call::RunJob { job }, &burnt, State::blank());
        assert_eq!((again.number, again.pulses, same == burnt), (0, 0, true));
    }
}
