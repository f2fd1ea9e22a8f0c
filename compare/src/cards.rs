//! Random cards: in rows that are clean, worn, damaged, oversized and blank, of both versions and of none, with sizes at and around their borders;
//! on pages that are locked and behind keys; and asked for in areas of every length, their jobs run, cut and run again, and the card read back.

use crate::arguments;
use crate::bench::{Bench, Difference};
use crate::card_read::{read, read_alone, FIRST};
use crate::card_written::{Board, Order};
use crate::code::Codes;
use crate::images::{too_large, Image};
use crate::random::Random;
use crate::shape::{Card, State, LARGEST, LOCK_ROWS, PAGE_ROWS};
use crate::states;

/// A card makes no more calls than this.
pub const MOST_CALLS: u64 = 150;
/// The page that a card stands in.
pub const PAGE: usize = FIRST / PAGE_ROWS;

/// A size: in its range, at a border, just past one, or far from it.
fn size(random: &mut Random, most: u32) -> u32 {
    let any = random.below(0x1_0000);
    match random.below(16) {
        0 => 0,
        1 => most + 1,
        2 => random.pick(&[0x7fff, 0x8000, 0x8001, 0xffff, 0x100, any]),
        3 | 4 => 1,
        5 | 6 => most,
        _ => 1 + random.below(most),
    }
}

/// The bytes in a line, for this width.
fn line(random: &mut Random, width: u32) -> u32 {
    let any = random.below(0x1_0000);
    match random.below(12) {
        0 => width.saturating_sub(1),
        1 => 1025,
        2 => random.pick(&[0, 1, 0x8000, 0xffff, any]),
        3 | 4 => width,
        5 | 6 => 1024,
        _ => width + random.below(1025u32.saturating_sub(width).max(1)),
    }
}

/// The numbers of a card, as rows can hold them.
fn card(random: &mut Random) -> Card {
    let version = match random.below(16) {
        0 => random.pick(&[0, 3]),
        1 => random.pick(&[0x0101, 0x0102, 0x0200, 0x8001, 0xffff]),
        _ => 1 + random.below(2),
    };
    let (width, height) = (size(random, 320), size(random, 240));
    Card {
        number: 0,
        version,
        width,
        height,
        line: line(random, width),
    }
}

/// A number in a row: clean or worn, in either polarity.
fn row(random: &mut Random, codes: &Codes, value: u32) -> u32 {
    let row = codes.of(value) ^ random.pick(&[0, 0, LARGEST]);
    match random.below(12) {
        0 | 1 => row ^ 1 << random.below(22),
        2 => codes.of(value) ^ 1 << (22 + random.below(2)),
        _ => row,
    }
}

/// The six rows of a card: mostly one that can be read.
pub fn entries(random: &mut Random, codes: &Codes) -> [u32; 6] {
    let card = card(random);
    let mut mark = [0x5053, 0x004c];
    if random.once_in(10) {
        let place = random.below(2) as usize;
        let any = mark[place] ^ 1 << random.below(16);
        mark[place] = random.pick(&[0, any, mark[1 - place], 0xffff]);
    }
    let values = [mark[0], mark[1], card.version, card.width, card.height, card.line];
    let mut rows = values.map(|value| row(random, codes, value));
    for _ in 0..random.pick(&[0, 0, 0, 0, 1, 1, 2]) {
        let place = random.pick(&[0, 1, 2, 3, 4, 5, 5, 5]);
        rows[place] = match random.below(6) {
            0 | 1 => too_large(random),
            2 => random.pick(&[0, LARGEST]),
            _ => rows[place] ^ 1 << random.below(11) ^ 1 << (11 + random.below(11)),
        };
    }
    rows
}

/// Before a card is read: now and then another one, or another number in one of its rows.
pub fn stir(random: &mut Random, bench: &mut Bench, codes: &Codes) {
    match random.below(4) {
        0 => {
            for (row, entry) in (FIRST as u32..).zip(entries(random, codes)) {
                bench.put(row, entry);
            }
        }
        1 => {
            let place = random.below(6);
            let entry = entries(random, codes)[place as usize];
            bench.put(FIRST as u32 + place, entry);
        }
        _ => {}
    }
}

/// A card that is asked for: one that rows can hold, or with a number that they cannot, and with any number for the line of version 1.
pub fn asked(random: &mut Random) -> Card {
    let mut card = card(random);
    let far = random.number();
    let high = random.pick(&[0x1_0000, 0x8000_0000, 0xffff_0000]);
    match random.below(12) {
        0 => card.version = random.pick(&[high | card.version, far]),
        1 => card.width = random.pick(&[high | card.width, far]),
        2 => card.height = random.pick(&[high | card.height, far]),
        3 => card.line = random.pick(&[high | card.line, far]),
        _ => {}
    }
    card
}

/// An area and what it held before: mostly as long as a card's job or longer.
pub fn area(random: &mut Random) -> Vec<u8> {
    let any = random.below(60);
    let length = random.pick(&[0, 36, 37, 37, 38, 42, 43, 43, 43, 44, 64, any, any]);
    (0..length).map(|_| random.number() as u8).collect()
}

/// A state for a card to be read in: blank, or drawn, with a page of its own for the card.
fn state(random: &mut Random, image: &Image) -> State {
    if random.once_in(3) {
        return State::blank();
    }
    let mut state = states::by_hand(random, image);
    if random.coin() {
        states::change_page(random, image, &mut state, PAGE);
    }
    if random.coin() {
        (state.nonsecure[PAGE], state.writekey[PAGE], state.readkey[PAGE]) = (0, 0, 0);
    }
    state
}

/// Rows for a card's job: blank, burnt with a card or half burnt with it, on a page as the image has it, or open to Secure.
fn board(random: &mut Random, image: &Image, codes: &Codes, order: &Order) -> Vec<u32> {
    let mut rows = image.rows.clone();
    let share = random.pick(&[0, 0, 1, 3]);
    let Card {
        version,
        width,
        height,
        line,
        ..
    } = order.card;
    let values = [0x5053, 0x004c, version, width, height, line];
    for (row, value) in rows[FIRST..].iter_mut().zip(values) {
        let some = random.number();
        *row = match random.below(4) < share {
            true => codes.of(value & 0xffff) & random.pick(&[LARGEST, LARGEST, some]),
            false => 0,
        };
    }
    if random.once_in(4) {
        rows[LOCK_ROWS as usize + 2 * PAGE + 1] = random.pick(&[0, 0x04_0404, 0x08_0808]);
    }
    if random.once_in(8) {
        rows[FIRST..FIRST + 6].copy_from_slice(&entries(random, codes).map(|entry| entry & LARGEST));
    }
    rows
}

/// Draws a card and reads it some times; then asks for one, and where it is written runs its job.
pub fn card_and_job(random: &mut Random, bench: &mut Bench, codes: &Codes) -> Result<(), Difference> {
    let image = Image::new(random, codes, true);
    bench.load(&image.rows);
    bench.state = state(random, &image);
    for (row, entry) in (FIRST as u32..).zip(entries(random, codes)) {
        bench.put(row, entry);
    }
    for _ in 0..4 {
        read(bench, arguments::length(random))?;
        stir(random, bench, codes);
    }
    if random.once_in(16) {
        read_alone(bench)?;
    }
    for _ in 0..3 {
        let (card, area) = (asked(random), area(random));
        let order = Order { card, area };
        let Some(job) = order.write(bench)? else {
            continue;
        };
        let key = match random.coin() {
            true => arguments::key(random, &image),
            false => vec![0; 16],
        };
        let rows = board(random, &image, codes, &order);
        let cut = random.coin().then(|| random.below(70));
        let board = Board { rows: &rows, key: &key };
        order.burn(bench, &job, &board, cut)?;
    }
    Ok(())
}

/// Before a card is read in a row of other calls: now and then the same, and other settings of its page.
pub fn stir_page(random: &mut Random, bench: &mut Bench, image: &Image, codes: &Codes, by_hand: bool) {
    stir(random, bench, codes);
    if by_hand && random.once_in(3) {
        states::change_page(random, image, &mut bench.state, PAGE);
    }
}
