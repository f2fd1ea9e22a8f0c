//! A card that is written: what is promised of it (request 2026-12), held to the numbers that are asked for, the area, the answers, the rows and
//! what the reader hands over. It asks neither the library nor the model for its rule.
//!
//! It is refused exactly where version, sizes or area say so, and then leaves the area. Else its job stands in front of the area, and all bytes
//! past it are as they were; the reader hands over an ECC entry for each row of the card. The job is run as any job is: cut and run again,
//! with a key and without, over rows that are burnt. Where it is done and Non-secure may read the rows, the card reads back the same, and once
//! more where the job is burnt again.

use crate::bench::{Bench, Difference};
use crate::call::Call;
use crate::card_kinds::{Asked, Burnt};
use crate::card_read::{self, END, FIRST};
use crate::shape::{Answer, Card, NONSECURE, ROWS, SECURE};

/// A card that is asked for, and the area with what it holds before.
#[derive(Clone)]
pub struct Order {
    pub card: Card,
    pub area: Vec<u8>,
}

/// The chip that a card's job is run on: its rows, in the longer buffer that they lie in, and the key that is entered after a reset.
pub struct Board<'a> {
    pub rows: &'a [u32],
    pub key: &'a [u8],
}

impl Order {
    /// What the card holds, row by row.
    fn values(&self) -> Vec<u32> {
        let Card {
            version,
            width,
            height,
            line,
            ..
        } = self.card;
        let five = [0x5053, 0x004c, version, width, height];
        five.into_iter().chain((version == 2).then_some(line)).collect()
    }

    /// The number that is due: the first of the refusals that there is ground for.
    fn due(&self) -> u32 {
        let Card {
            version,
            width,
            height,
            line,
            ..
        } = self.card;
        let bytes = 7 + 6 * self.values().len();
        let lines = version != 2 || (width..=1024).contains(&line);
        let sized = (1..=320).contains(&width) && (1..=240).contains(&height) && lines;
        match (version, sized) {
            (1 | 2, true) if self.area.len() < bytes => 12,
            (1 | 2, true) => 0,
            (1 | 2, false) => 17,
            _ => 16,
        }
    }

    /// The card as it must read back: a version 1 card's line is its width.
    fn read_as(&self) -> Card {
        let line = match self.card.version {
            1 => self.card.width,
            _ => self.card.line,
        };
        Card { line, ..self.card }
    }

    /// Writes the card, and gives its job where it is done.
    pub fn write(&self, bench: &mut Bench) -> Result<Option<Vec<u8>>, Difference> {
        let mut area = self.area.clone();
        let answer = bench.write_card(&self.card, &mut area)?;
        let (card, room, number) = (self.card, self.area.len(), answer.number);
        bench.asked.note(&Asked { card, room, number });
        self.agree(
            number == self.due(),
            "it is refused exactly where version, sizes or area say so, with the first of their numbers",
        )?;
        if number != 0 {
            self.agree(answer == Answer::refused(number), "a refusal is its number alone")?;
            self.agree(area == self.area, "a refusal leaves the area")?;
            return Ok(None);
        }
        let bytes = 7 + 6 * self.values().len();
        self.agree(
            answer == Answer::value(bytes as u32),
            "the answer is the job's length and nothing else",
        )?;
        self.agree(
            area[bytes..] == self.area[bytes..],
            "bytes past the job are as they were",
        )?;
        self.agree(area[3..5] == [1, 0], "the job is a version 1 file")?;
        area.truncate(bytes);
        self.is_listed(bench, &area)?;
        Ok(Some(area))
    }

    /// The reader hands over an ECC entry for each row of the card, and then the end.
    fn is_listed(&self, bench: &mut Bench, job: &[u8]) -> Result<(), Difference> {
        let mut at = 7;
        for (row, value) in (FIRST as u32..).zip(self.values()) {
            let handed = bench.next_entry(job, at)?;
            let found = (handed.number, handed.end, handed.row, handed.kind, handed.value);
            self.agree(
                found == (0, 0, row, 0, value),
                "the job has an ECC entry for each row of the card",
            )?;
            at = handed.at;
        }
        let end = bench.next_entry(job, at)?.end;
        self.agree(end == 1, "the job has no other entry")
    }

    /// Runs the job on a chip just reset with the key, cut after so many pulses where that is given, and holds the card to what was asked for.
    /// Rows that no reset takes are left alone.
    pub fn burn(&self, bench: &mut Bench, job: &[u8], board: &Board, cut: Option<u32>) -> Result<(), Difference> {
        let job = job.to_vec();
        bench.load(board.rows);
        if begin(bench, board.key)? != 0 {
            return Ok(());
        }
        let mut it = Burnt {
            version: self.card.version,
            number: 0,
            pulses: 0,
            over: board.rows[FIRST..END - 1].iter().any(|entry| *entry != 0),
            cut: cut.is_some(),
            keyed: board.key.iter().any(|byte| *byte != 0),
            read: 0,
        };
        if let Some(limit) = cut {
            let job = job.clone();
            it.pulses = bench.call(&Call::Rehearse { limit, job })?.pulses;
            begin(bench, board.key)?;
        }
        let answer = bench.call(&Call::RunJob { job: job.clone() })?;
        it.number = answer.number;
        it.pulses += answer.pulses;
        self.agree(
            [0, 7, 3, 9].contains(&it.number),
            "its job is one that the chip takes, or refuses for its rows alone",
        )?;
        if it.number == 0 {
            self.reads_back(bench, &mut it)?;
        }
        bench.burnt.note(&it);
        if it.number != 0 {
            return Ok(());
        }
        // The same card once more: nothing is left to burn.
        let again = bench.call(&Call::RunJob { job })?;
        self.agree(
            (again.number, again.pulses) == (0, 0),
            "a card that is burnt again burns nothing",
        )?;
        (it.pulses, it.cut, it.over) = (0, false, true);
        self.reads_back(bench, &mut it)?;
        bench.burnt.note(&it);
        Ok(())
    }

    /// The card reads back the same where Non-secure may read its rows, and where it may not, not at all.
    fn reads_back(&self, bench: &mut Bench, it: &mut Burnt) -> Result<(), Difference> {
        let (caller, row) = (NONSECURE, FIRST as u32);
        let hidden = bench.call(&Call::ReadRaw { caller, row })?.number == 7;
        let card = card_read::read(bench, ROWS)?;
        it.read = card.number;
        let due = if hidden { Card::refused(7) } else { self.read_as() };
        self.agree(
            card == due,
            &format!("the card reads back the same, and not as {card:?}"),
        )?;
        match it.read {
            0 => card_read::read_worn(bench, &card, [0, 3, 7, 15, 18, 21].map(|place| place + it.pulses)),
            _ => Ok(()),
        }
    }

    fn agree(&self, holds: bool, what: &str) -> Result<(), Difference> {
        if holds {
            return Ok(());
        }
        let (card, room) = (self.card, self.area.len());
        Err(Difference(format!(
            "a written card fails: {card:?}, area of {room} bytes: this does not hold: {what}"
        )))
    }
}

/// Resets the chip as it stands and enters the key: gives the reset's number.
fn begin(bench: &mut Bench, key: &[u8]) -> Result<u32, Difference> {
    let number = bench.call(&Call::Reset {})?.number;
    if number == 0 {
        bench.call(&Call::EnterKey {
            caller: SECURE,
            key: key.to_vec(),
        })?;
    }
    Ok(number)
}
