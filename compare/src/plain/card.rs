//! For timings alone: a card read from its rows, and the job of one written into a lent area.

use crate::plain::access::read_value;
use crate::plain::jobs::{ENTRY, HEAD};
use crate::plain::{answer, refuse_if, Refusal};
use crate::shape::{Answer, Card, State, NONSECURE};

/// The first row of a card, and what its first two rows hold.
const FIRST: u16 = 0x0c0;
const MARK: [u32; 2] = [0x5053, 0x004c];

/// Whether each size is in its range.
fn sized(width: u32, height: u32, line: u32) -> bool {
    (1..=320).contains(&width) && (1..=240).contains(&height) && (width..=1024).contains(&line)
}

pub fn read_card(rows: &[u32], state: &State) -> Card {
    shown(rows, state).unwrap_or_else(Card::refused)
}

fn shown(rows: &[u32], state: &State) -> Result<Card, Refusal> {
    let value = |place: u32| read_value(rows, state, NONSECURE, u32::from(FIRST) + place);
    let (first, second, version, width, height) = (value(0)?, value(1)?, value(2)?, value(3)?, value(4)?);
    refuse_if([first, second] != MARK, 15)?;
    let line = match version {
        1 => width,
        2 => value(5)?,
        _ => return Err(16),
    };
    refuse_if(!sized(width, height, line), 17)?;
    Ok(Card {
        number: 0,
        version,
        width,
        height,
        line,
    })
}

pub fn write_card(area: &mut [u8], asked: &Card) -> Answer {
    answer(written(area, asked))
}

fn written(area: &mut [u8], asked: &Card) -> Result<Answer, Refusal> {
    let Card {
        version,
        width,
        height,
        line,
        ..
    } = *asked;
    let (count, held) = match version {
        1 => (5, width),
        2 => (6, line),
        _ => return Err(16),
    };
    refuse_if(!sized(width, height, held), 17)?;
    let job = area.get_mut(..HEAD + ENTRY * count).ok_or(12u32)?;
    let (head, entries) = job.split_at_mut(HEAD);
    head.copy_from_slice(&[0x4f, 0x54, 0x4a, 1, 0, count as u8, 0]);
    let values = [MARK[0], MARK[1], version, width, height, line];
    for ((entry, row), value) in entries.chunks_exact_mut(ENTRY).zip(FIRST..).zip(values) {
        entry[..2].copy_from_slice(&row.to_le_bytes());
        entry[2] = 0;
        entry[3..].copy_from_slice(&value.to_le_bytes()[..3]);
    }
    Ok(Answer::value((HEAD + ENTRY * count) as u32))
}
