//! A job made of two images (request 2026-04): one raw entry for each row below 0xf40 that differs, rising, which carries the wanted row.

use crate::fault::Fault;
use crate::form::{DATA_END, ECC, MOST, RAW};
use crate::ladder::need;
use crate::model::Model;
use crate::row::within;
use crate::shape::{Answer, AREA, LARGEST, ROWS};

/// A row of two images: its number, and what it holds in the one and in the other.
#[derive(Clone, Copy)]
struct Row {
    row: u32,
    present: u32,
    wanted: u32,
}

impl Row {
    fn differs(&self) -> bool {
        self.present != self.wanted
    }

    fn is_high(&self) -> bool {
        self.row >= DATA_END
    }
}

/// The rows of two images that differ.
fn differing(present: &[u32], wanted: &[u32]) -> Vec<Row> {
    rows(present, wanted).filter(Row::differs).collect()
}

fn rows<'a>(present: &'a [u32], wanted: &'a [u32]) -> impl Iterator<Item = Row> + 'a {
    let pairs = present.iter().zip(wanted).zip(0..);
    pairs.map(|((present, wanted), row)| Row {
        row,
        present: *present,
        wanted: *wanted,
    })
}

impl Model {
    /// Makes the job: answers its length, and gives the output with the job in front.
    pub fn made(&self, present: &[u32], wanted: &[u32], out: &[u8]) -> Result<(Answer, Vec<u8>), u32> {
        for number in self.rungs() {
            need(!self.is_refused(number, present, wanted, out.len()), number)?;
        }
        let list = differing(present, wanted);
        let (job, mut left) = (self.job_of(present, wanted), out.to_vec());
        if list.is_empty() && self.has(Fault::MakeEmptyUnsaid) {
            return Ok((Answer::default(), left));
        }
        lay(&job, &mut left);
        if self.has(Fault::MakeClears) {
            left.iter_mut().skip(job.len()).for_each(|byte| *byte = 0);
        }
        Ok((self.told(&job, &list), left))
    }

    /// The refusals in their order.
    fn rungs(&self) -> [u32; 6] {
        match self.fault {
            Some(Fault::MakeSizeFirst) => [3, 1, 13, 11, 14, 12],
            Some(Fault::MakeLostBeforeSize) => [1, 13, 3, 11, 14, 12],
            Some(Fault::MakeHighBeforeLost) => [1, 3, 11, 13, 14, 12],
            Some(Fault::MakeManyBeforeHigh) => [1, 3, 13, 14, 11, 12],
            Some(Fault::MakeRoomBeforeMany) => [1, 3, 13, 11, 12, 14],
            Some(Fault::MakeRoomFirst) => [1, 12, 3, 13, 11, 14],
            _ => [1, 3, 13, 11, 14, 12],
        }
    }

    /// Whether there is ground for this refusal, whatever else there is.
    fn is_refused(&self, number: u32, present: &[u32], wanted: &[u32], room: usize) -> bool {
        match number {
            1 => present.len() != ROWS || (wanted.len() != ROWS && !self.has(Fault::MakeLengthOfOne)),
            3 => self.is_oversized(present, wanted),
            13 => rows(present, wanted).any(|row| self.is_lost(&row)),
            11 => differing(present, wanted).iter().any(|row| self.is_out_of_place(row)),
            14 => differing(present, wanted).len() > self.most(),
            _ => room < self.room_for(differing(present, wanted).len()),
        }
    }

    /// An entry of either image that 24 bits do not hold.
    fn is_oversized(&self, present: &[u32], wanted: &[u32]) -> bool {
        let large = |entry: &u32| *entry > LARGEST;
        match self.fault {
            Some(Fault::MakeSizeOfPresent) => present.iter().any(large),
            Some(Fault::MakeSizeOfWanted) => wanted.iter().any(large),
            Some(Fault::MakeSizeBelow) => [present, wanted]
                .iter()
                .any(|image| image.iter().take(DATA_END as usize).any(large)),
            Some(Fault::MakeSizeIfUnlike) => {
                let list = differing(present, wanted);
                list.iter().any(|row| large(&row.present) || large(&row.wanted))
            }
            _ => present.iter().chain(wanted).any(large),
        }
    }

    /// A burnt bit that the wanted row lacks, in any row.
    fn is_lost(&self, row: &Row) -> bool {
        let lost = !within(row.present, row.wanted);
        match self.fault {
            Some(Fault::MakeLostBelow) => lost && !row.is_high(),
            Some(Fault::MakeLostByNumber) => row.wanted < row.present,
            Some(Fault::MakeLostAlone) => lost && within(row.wanted, row.present),
            _ => lost,
        }
    }

    /// A row that differs and that no version 1 job may have.
    fn is_out_of_place(&self, row: &Row) -> bool {
        match self.fault {
            Some(Fault::MakeHighTaken | Fault::MakeHighLeftOut) => false,
            Some(Fault::MakeF40Taken) => row.row > DATA_END,
            Some(Fault::MakeF3fRefused) => row.row >= DATA_END - 1,
            Some(Fault::MakeLocksTaken) => row.is_high() && row.row < 0xf80,
            _ => row.is_high(),
        }
    }

    /// Only a fault makes an entry of a row from 0xf40 up.
    fn takes_high(&self) -> bool {
        let faults = [Fault::MakeHighTaken, Fault::MakeF40Taken, Fault::MakeLocksTaken];
        faults.iter().any(|fault| self.has(*fault))
    }

    /// How many rows may differ.
    fn most(&self) -> usize {
        match self.fault {
            Some(Fault::Make513) => MOST + 1,
            Some(Fault::Make511) => MOST - 1,
            _ => MOST,
        }
    }

    /// The bytes that the job of so many rows needs.
    fn room_for(&self, count: usize) -> usize {
        let bytes = 7 + 6 * count;
        match self.fault {
            Some(Fault::MakeShortTaken) => bytes - 1,
            Some(Fault::MakeRoomToSpare) => bytes + 1,
            Some(Fault::MakeRoomForAll) => AREA,
            _ => bytes,
        }
    }

    /// The bytes of the job.
    pub fn job_of(&self, present: &[u32], wanted: &[u32]) -> Vec<u8> {
        let mut list = differing(present, wanted);
        list.retain(|row| !row.is_high() || self.takes_high());
        if self.has(Fault::MakeFalls) {
            list.reverse();
        }
        let version = if self.has(Fault::MakeVersion2) { 2 } else { 1 };
        let count = match self.fault {
            Some(Fault::MakeCountMore) => list.len() + 1,
            Some(Fault::MakeCountLow) => list.len() % 256,
            _ => list.len(),
        };
        let head = [0x4f, 0x54, 0x4a, version, 0, count as u8, (count >> 8) as u8];
        let entries = list.iter().flat_map(|row| self.entry_of(row));
        head.into_iter().chain(entries).collect()
    }

    /// The six bytes of a row's entry: the row, the kind and the whole wanted row.
    fn entry_of(&self, row: &Row) -> [u8; 6] {
        let kind = if self.has(Fault::MakeEcc) { ECC } else { RAW };
        let value = match self.fault {
            Some(Fault::MakeDifference) => row.wanted ^ row.present,
            Some(Fault::MakePresent) => row.present,
            _ => row.wanted,
        };
        let [low, middle, high, _] = value.to_le_bytes();
        [row.row as u8, (row.row >> 8) as u8, kind, low, middle, high]
    }

    /// What a job that is made answers: its length in bytes.
    fn told(&self, job: &[u8], list: &[Row]) -> Answer {
        let answer = Answer::value(job.len() as u32);
        let place = list.len() as u32;
        let pulses = list.iter().map(|row| (row.wanted ^ row.present).count_ones()).sum();
        match self.fault {
            Some(Fault::MakeCountsEntries) => Answer::value(place),
            Some(Fault::MakeSaysPulses) => Answer { pulses, ..answer },
            Some(Fault::MakeSaysPlace) => Answer { place, ..answer },
            _ => answer,
        }
    }

    /// The output that a refusal leaves: as it was.
    pub fn kept_output(&self, job: &[u8], out: &[u8], number: u32) -> Vec<u8> {
        let mut left = out.to_vec();
        match (self.fault, number) {
            (Some(Fault::MakeRefusedWrites), 12) => lay(job, &mut left),
            (Some(Fault::MakeHeadAtOnce), 13 | 11 | 14) => lay(&job[..7], &mut left),
            _ => {}
        }
        left
    }
}

/// Lays the job into the output. Only a fault comes here where it does not fit.
fn lay(job: &[u8], output: &mut [u8]) {
    output.iter_mut().zip(job).for_each(|(place, byte)| *place = *byte);
}
