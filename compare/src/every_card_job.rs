//! Cards written: every version and size at and around its borders, areas of every length, and the jobs run on chips that are blank, burnt and
//! locked, cut at every pulse, and the card read back.

use crate::bench::{Bench, Difference, BUFFER};
use crate::card_read::FIRST;
use crate::card_written::{Board, Order};
use crate::cards::PAGE;
use crate::code::Codes;
use crate::keys::{first_row, flag_row};
use crate::shape::{Card, LARGEST, LOCK_ROWS};

const VERSIONS: [u32; 9] = [0, 1, 2, 3, 0x100, 0x101, 0x1_0001, 0x1_0002, u32::MAX];
const WIDTHS: [u32; 13] = [
    0,
    1,
    2,
    240,
    319,
    320,
    321,
    0x7fff,
    0x8000,
    0xffff,
    0x1_0001,
    0x8000_0001,
    u32::MAX,
];
const HEIGHTS: [u32; 10] = [0, 1, 239, 240, 241, 320, 0x8000, 0xffff, 0x1_0001, u32::MAX];
/// Lines, but for those about the width.
const LINES: [u32; 9] = [0, 1, 1023, 1024, 1025, 0x8000, 0xffff, 0x1_0400, u32::MAX];
/// The longest area that is tried.
const LONGEST: usize = 45;

/// Cards whose jobs are run.
const CARDS: [Card; 5] = [
    asked(1, 320, 240, 0),
    asked(1, 1, 1, u32::MAX),
    asked(2, 320, 240, 1024),
    asked(2, 1, 1, 1),
    asked(2, 200, 100, 256),
];

const fn asked(version: u32, width: u32, height: u32, line: u32) -> Card {
    let number = 0;
    Card {
        number,
        version,
        width,
        height,
        line,
    }
}

/// An order with an area of so many bytes, which hold something before.
fn order(card: Card, room: usize) -> Order {
    let area = (0..room as u8).map(|place| 0xa5 ^ place).collect();
    Order { card, area }
}

/// Every choice of numbers, in an area that is too short for any, for version 2 alone, and for none. What is written there is burnt into blank
/// rows and into half burnt ones.
fn every_size(bench: &mut Bench, codes: &Codes) -> Result<(), Difference> {
    for (version, width) in VERSIONS
        .into_iter()
        .flat_map(|version| WIDTHS.map(|width| (version, width)))
    {
        let about = [width.wrapping_sub(1), width, width.wrapping_add(1)];
        let lines: Vec<u32> = LINES.into_iter().chain(about).collect();
        for (height, line) in HEIGHTS
            .into_iter()
            .flat_map(|height| lines.iter().map(move |line| (height, *line)))
        {
            let card = asked(version, width, height, line);
            for room in [0, 42] {
                order(card, room).write(bench)?;
            }
            let order = order(card, LONGEST);
            if let Some(job) = order.write(bench)? {
                let (boards, key) = (boards(codes, &card), &[0; 16]);
                for rows in [&boards[BLANK], &boards[HALF]] {
                    order.burn(bench, &job, &Board { rows, key }, None)?;
                }
            }
        }
    }
    Ok(())
}

/// Areas of every length, for cards that are good, unknown, and wrong in a size.
fn every_room(bench: &mut Bench) -> Result<(), Difference> {
    for room in 0..=LONGEST {
        for version in 0..4 {
            for (width, height, line) in [(320, 240, 1024), (1, 1, 1), (321, 240, 1024), (320, 0, 320), (7, 7, 6)] {
                order(asked(version, width, height, line), room).write(bench)?;
            }
        }
    }
    Ok(())
}

/// The places of two sorts of boards among the list below: blank, and half burnt.
const BLANK: usize = 0;
const HALF: usize = 3;

/// What a card's rows may hold before its job is run, in both polarities: nothing, the card, some of it, other cards, rows that are worn or full.
fn boards(codes: &Codes, card: &Card) -> Vec<Vec<u32>> {
    let values = [
        0x5053,
        0x004c,
        card.version,
        card.width,
        card.height,
        card.line & 0xffff,
    ];
    let right = values.map(|value| codes.of(value));
    let other = [0x5053, 0x004c, 1, 160, 120, 160].map(|value| codes.of(value));
    let kept = |kept: u32| right.map(|row| row & kept);
    let first = |count: usize, row: u32| {
        let mut rows = [0; 6];
        rows[..count].copy_from_slice(&right[..count]);
        rows[5] = row;
        rows
    };
    let sorts = [
        [0; 6],
        right,
        right.map(|row| row ^ LARGEST),
        kept(0x5a_5a5a),
        kept(0x00_ffff),
        kept(0x3f_fffe),
        first(2, 0),
        first(3, 0),
        first(5, LARGEST),
        first(0, 1),
        other,
        [0, 0, 0, LARGEST, 0, 0],
    ];
    let board = |sort: [u32; 6]| {
        let mut rows = vec![0; BUFFER];
        rows[FIRST..FIRST + 6].copy_from_slice(&sort);
        rows
    };
    sorts.map(board).to_vec()
}

/// The lock rows of the card's page, low and high, under which its job is run: open, closed to Non-secure, to all but reads, to Secure, behind
/// a key that may be entered, for writing and for reading, with and without access before.
const LOCKS: [(u32, u32); 9] = [
    (0, 0),
    (0, 0x04_0404),
    (0, 0x08_0808),
    (0, 0x01_0101),
    (0x01_0101, 0),
    (0x08_0808, 0),
    (0x41_4141, 0),
    (0x48_4848, 0x04_0404),
    (0x07_0707, 0),
];

const KEY: &[u8; 16] = b"sixteen byte key";

/// Burns key 1, and locks the card's page.
fn lock(codes: &Codes, rows: &mut [u32], (low, high): (u32, u32)) {
    for (row, bytes) in rows[first_row(1) as usize..].iter_mut().zip(KEY.chunks(2)) {
        *row = codes.of(u32::from(u16::from_le_bytes([bytes[0], bytes[1]])));
    }
    rows[flag_row(1) as usize] = 0x01_0101;
    let place = LOCK_ROWS as usize + 2 * PAGE;
    (rows[place], rows[place + 1]) = (low, high);
}

/// Each card's job on each board under each lock, with the key and without.
fn every_board(bench: &mut Bench, codes: &Codes) -> Result<(), Difference> {
    for card in CARDS {
        let order = order(card, LONGEST);
        let Some(job) = order.write(bench)? else {
            continue;
        };
        for (mut rows, locks) in boards(codes, &card)
            .into_iter()
            .flat_map(|rows| LOCKS.map(|locks| (rows.clone(), locks)))
        {
            lock(codes, &mut rows, locks);
            for key in [KEY, &[0; 16], b"another long key"] {
                let board = Board { rows: &rows, key };
                order.burn(bench, &job, &board, None)?;
            }
        }
    }
    Ok(())
}

/// Each card's job cut after every pulse, on boards without locks.
fn every_cut(bench: &mut Bench, codes: &Codes) -> Result<(), Difference> {
    for card in CARDS {
        let order = order(card, LONGEST);
        let Some(job) = order.write(bench)? else {
            continue;
        };
        for rows in boards(codes, &card) {
            for limit in 0..64 {
                let board = Board {
                    rows: &rows,
                    key: &[0; 16],
                };
                order.burn(bench, &job, &board, Some(limit))?;
            }
        }
    }
    Ok(())
}

/// Makes all these calls.
pub fn every_card_job(bench: &mut Bench) -> Result<(), Difference> {
    let codes = Codes::new(None);
    every_size(bench, &codes)?;
    every_room(bench)?;
    every_board(bench, &codes)?;
    every_cut(bench, &codes)
}

/// After these calls and those of `every_card` each kind of card must have come up, as it was read, asked for and burnt.
pub fn every_kind_of_card(bench: &mut Bench) -> Result<(), Difference> {
    let missing = bench
        .cards
        .missing()
        .or(bench.asked.missing())
        .or(bench.burnt.missing());
    match missing {
        Some(kind) => Err(Difference(format!("no card, or no job of one, was {kind}"))),
        None => Ok(()),
    }
}
