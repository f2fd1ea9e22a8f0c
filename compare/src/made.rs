//! A job made of two images: what is promised of it (request 2026-04), held to the images, the bytes, the answers and the rows alone. It asks
//! neither the library nor the model for its rule.
//!
//! Two whole images in range are refused exactly if a row loses a bit, a row from 0xf40 up differs, more than 512 rows differ, or the output is
//! too short, and the first of these is answered. What is made has an entry for each row that differs, and leaves the output's other bytes.

use std::iter::zip;

use crate::bench::{Bench, Difference};
use crate::pair_kinds::Made;
use crate::shape::{Answer, LARGEST, ROWS};

/// The first row that no job of version 1 may have.
const HIGH: usize = 0xf40;

/// A present image, in the longer buffer that the rows lie in, how many rows of it are lent, and the wanted one: none, where the present one
/// is lent for both.
pub struct Pair {
    pub present: Vec<u32>,
    pub lent: usize,
    pub wanted: Option<Vec<u32>>,
}

impl Pair {
    /// Of two whole images.
    pub fn new(present: &[u32], wanted: &[u32]) -> Pair {
        Pair {
            present: present.to_vec(),
            lent: ROWS,
            wanted: Some(wanted[..ROWS].to_vec()),
        }
    }

    fn lent(&self) -> &[u32] {
        &self.present[..self.lent]
    }

    pub fn wanted(&self) -> &[u32] {
        self.wanted.as_deref().unwrap_or(self.lent())
    }

    /// The rows that differ.
    pub fn apart(&self) -> Vec<usize> {
        let rows = zip(self.lent(), self.wanted()).enumerate();
        rows.filter(|(_, (now, then))| now != then)
            .map(|(row, _)| row)
            .collect()
    }

    /// What the two are to each other, and to an output of so many bytes.
    pub fn looked_at(&self, room: usize) -> Made {
        let (present, wanted, apart) = (self.lent(), self.wanted(), self.apart());
        let lost = |row: &usize| present[*row] & !wanted[*row] != 0;
        let gained = |row: &usize| wanted[*row] & !present[*row] != 0;
        let high = apart.iter().filter(|row| **row >= HIGH).count();
        let high_lost = apart.iter().filter(|row| **row >= HIGH && lost(row)).count();
        Made {
            number: 0,
            whole: [present, wanted].map(|image| image.len() == ROWS),
            same: self.wanted.is_none(),
            large: [present, wanted].map(|image| image.iter().any(|entry| *entry > LARGEST)),
            apart: apart.len() - high,
            high,
            bits: apart
                .iter()
                .map(|row| (present[*row] ^ wanted[*row]).count_ones())
                .sum(),
            lost: apart.iter().filter(|row| lost(row)).count() - high_lost,
            high_lost,
            exchanged: apart.iter().filter(|row| lost(row) && gained(row)).count(),
            room,
            need: 7 + 6 * apart.len(),
        }
    }

    /// The bytes of the job that it must be.
    fn job(&self) -> Vec<u8> {
        let apart = self.apart();
        let count = (apart.len() as u16).to_le_bytes();
        let entry = |row: &usize| {
            let [low, high, ..] = row.to_le_bytes();
            let value = self.wanted()[*row].to_le_bytes();
            [low, high, 1, value[0], value[1], value[2]]
        };
        let head = [0x4f, 0x54, 0x4a, 1, 0, count[0], count[1]];
        head.into_iter().chain(apart.iter().flat_map(entry)).collect()
    }

    /// Makes the job into an output that holds these bytes, and gives it where it is made.
    pub fn make(&self, bench: &mut Bench, before: &[u8]) -> Result<Option<Vec<u8>>, Difference> {
        bench.load(&self.present);
        let mut out = before.to_vec();
        let answer = bench
            .make_job(self.lent, self.wanted.clone(), &mut out)
            .map_err(|Difference(line)| Difference(format!("{line}; {}", self.shown())))?;
        let it = Made {
            number: answer.number,
            ..self.looked_at(before.len())
        };
        bench.pairs.note(&it);
        self.agree(
            it.number == it.due(),
            "it is refused exactly where the images or the output say so, with the first of their numbers",
        )?;
        if it.number != 0 {
            let alone = answer == Answer::refused(it.number) && out == before;
            self.agree(alone, "a refusal answers its number alone, and leaves the output")?;
            return Ok(None);
        }
        let (job, behind) = out.split_at(it.need);
        let length = answer == Answer::value(it.need as u32);
        self.agree(
            length,
            "the answer is the length, 7 bytes and 6 for each row that differs",
        )?;
        self.agree(
            job == self.job(),
            "there is a raw entry with the wanted row for each row that differs",
        )?;
        self.agree(
            behind == &before[it.need..],
            "the output's other bytes are as they were",
        )?;
        Ok(Some(job.to_vec()))
    }

    pub fn agree(&self, holds: bool, what: &str) -> Result<(), Difference> {
        if holds {
            return Ok(());
        }
        Err(Difference(format!(
            "a job made of two images fails: {}: this does not hold: {what}",
            self.shown()
        )))
    }

    /// The two for a report: how many rows differ, and the first of these.
    fn shown(&self) -> String {
        let (apart, wanted) = (self.apart(), self.wanted());
        let row = |row: &usize| format!(", {row:#05x} from {:#08x} to {:#08x}", self.present[*row], wanted[*row]);
        let first: String = apart.iter().take(9).map(row).collect();
        format!("{} and {} rows, {} differ{first}", self.lent, wanted.len(), apart.len())
    }
}
