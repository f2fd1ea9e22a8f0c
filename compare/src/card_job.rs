//! The job of a splash card (request 2026-12): a version 1 file with an ECC entry for each row of the card, written into a lent area.

use crate::card::{FIRST, MARK};
use crate::card_sizes::Source;
use crate::fault::Fault;
use crate::form::{ECC, RAW};
use crate::ladder::need;
use crate::model::Model;
use crate::shape::{Answer, Card};

impl Model {
    /// Writes the job of a card: answers its length, and gives the area with the job in front.
    pub fn card_written(&self, asked: &Card, area: &[u8]) -> Result<(Answer, Vec<u8>), u32> {
        let card = &self.as_asked(asked);
        for number in self.card_job_rungs() {
            need(!self.is_card_refused(number, card, area.len()), number)?;
        }
        let job = self.card_job(card);
        let mut left = area.to_vec();
        left.iter_mut().zip(&job).for_each(|(place, byte)| *place = *byte);
        let past = match self.fault {
            Some(Fault::CardJobPastEnded) => 1,
            Some(Fault::CardJobPastCleared) => area.len(),
            _ => 0,
        };
        left.iter_mut().skip(job.len()).take(past).for_each(|byte| *byte = 0);
        Ok((self.card_job_told(&job), left))
    }

    /// The card as it is asked for. Only faults take its numbers for 16 bits.
    fn as_asked(&self, asked: &Card) -> Card {
        let low = |number: u32| number & 0xffff;
        match self.fault {
            Some(Fault::CardJobVersionLow) => Card {
                version: low(asked.version),
                ..*asked
            },
            Some(Fault::CardJobWidthLow) => Card {
                width: low(asked.width),
                ..*asked
            },
            Some(Fault::CardJobHeightLow) => Card {
                height: low(asked.height),
                ..*asked
            },
            Some(Fault::CardJobLineLow) => Card {
                line: low(asked.line),
                ..*asked
            },
            _ => *asked,
        }
    }

    /// The refusals in their order.
    fn card_job_rungs(&self) -> [u32; 3] {
        match self.fault {
            Some(Fault::CardJob17Before16) => [17, 16, 12],
            Some(Fault::CardJob12Before17) => [16, 12, 17],
            Some(Fault::CardJob12Before16) => [12, 16, 17],
            _ => [16, 17, 12],
        }
    }

    /// Whether there is ground for this refusal, whatever else there is.
    fn is_card_refused(&self, number: u32, card: &Card, room: usize) -> bool {
        match number {
            16 => !self.is_asked_version(card.version),
            17 => !self.are_sizes(card, Source::Asked),
            _ => room < self.card_job_room(card.version),
        }
    }

    fn is_asked_version(&self, version: u32) -> bool {
        match self.fault {
            Some(Fault::CardJobVersion0) => version <= 2,
            Some(Fault::CardJobVersion3) => (1..=3).contains(&version),
            Some(Fault::CardJobVersion1) => version == 1,
            _ => [1, 2].contains(&version),
        }
    }

    /// The bytes that the job of a card needs.
    fn card_job_room(&self, version: u32) -> usize {
        let bytes = if version == 2 { 43 } else { 37 };
        match self.fault {
            Some(Fault::CardJobRoomOf1) => 37,
            Some(Fault::CardJobRoomOf2) => 43,
            Some(Fault::CardJobShortTaken) => bytes - 1,
            Some(Fault::CardJobRoomToSpare) => bytes + 1,
            _ => bytes,
        }
    }

    /// The bytes of the job: a version 1 file of ECC entries, one for each row of the card.
    fn card_job(&self, card: &Card) -> Vec<u8> {
        let line = match self.fault {
            Some(Fault::CardJobLineIsWidth) => card.width,
            _ => card.line,
        };
        let sixth = match self.fault {
            Some(Fault::CardJobFive) => false,
            Some(Fault::CardJobSix) => true,
            _ => card.version == 2,
        };
        let (width, height) = match self.has(Fault::CardJobTurned) {
            true => (card.height, card.width),
            false => (card.width, card.height),
        };
        let mut values = vec![MARK[0], MARK[1], card.version, width, height];
        values.extend(sixth.then_some(line));
        let mut entries: Vec<[u8; 6]> = (FIRST..)
            .zip(&values)
            .map(|(row, value)| self.card_entry(row, *value))
            .collect();
        if self.has(Fault::CardJobFalls) {
            entries.reverse();
        }
        let version = match self.fault {
            Some(Fault::CardJobFile2) => 2,
            Some(Fault::CardJobFileOfCard) => card.version as u8,
            _ => 1,
        };
        let count = match self.fault {
            Some(Fault::CardJobCountsSix) => 6,
            Some(Fault::CardJobCountsFive) => 5,
            _ => entries.len() as u8,
        };
        let head = [0x4f, 0x54, 0x4a, version, 0, count, 0];
        head.into_iter().chain(entries.concat()).collect()
    }

    /// The six bytes of an entry: the row, the kind and the value.
    fn card_entry(&self, row: u32, value: u32) -> [u8; 6] {
        let row = row + u32::from(self.has(Fault::CardJobRowLater));
        let kind = if self.has(Fault::CardJobRaw) { RAW } else { ECC };
        let high = match self.has(Fault::CardJobLowBytes) {
            true => 0,
            false => (value >> 8) as u8,
        };
        [row as u8, (row >> 8) as u8, kind, value as u8, high, 0]
    }

    /// What a job that is written answers: its length in bytes.
    fn card_job_told(&self, job: &[u8]) -> Answer {
        let (bytes, entries) = (job.len() as u32, (job.len() as u32 - 7) / 6);
        match self.fault {
            Some(Fault::CardJobSaysEntries) => Answer::value(entries),
            Some(Fault::CardJobSaysNothing) => Answer::default(),
            Some(Fault::CardJobSaysMost) => Answer::value(43),
            Some(Fault::CardJobSaysPlace) => Answer {
                place: entries,
                ..Answer::value(bytes)
            },
            _ => Answer::value(bytes),
        }
    }

    /// What a job that is refused answers: its number alone. A fault lets one without room say how much it needs.
    pub fn refused_card_job(&self, asked: &Card, number: u32) -> Answer {
        let value = match self.has(Fault::CardJobSaysRoom) && number == 12 {
            true => self.card_job_room(asked.version) as u32,
            false => 0,
        };
        Answer {
            value,
            ..Answer::refused(number)
        }
    }

    /// The area that a refusal leaves: as it was.
    pub fn kept_area(&self, asked: &Card, area: &[u8], number: u32) -> Vec<u8> {
        let mut left = area.to_vec();
        let job = self.card_job(asked);
        match (self.fault, number) {
            (Some(Fault::CardJob12Writes), 12) => left.iter_mut().zip(&job).for_each(|(place, byte)| *place = *byte),
            (Some(Fault::CardJob17Writes), 17) => {
                left.iter_mut().zip(&job[..7]).for_each(|(place, byte)| *place = *byte)
            }
            (Some(Fault::CardJobRefusedClears), _) => left.fill(0),
            _ => {}
        }
        left
    }
}
