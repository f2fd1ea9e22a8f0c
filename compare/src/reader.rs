//! The reader (request 2026-04): what stands at a place of a job's bytes. It reads no head and judges no row.

use crate::early::{end, ENTRY, HEAD};
use crate::fault::Fault;
use crate::form::{Entry, DATA_END, ECC};
use crate::model::Model;
use crate::shape::{Handed, PAST};

impl Model {
    /// The end at or past the length; 10, staying put, for what is no entry; else the entry, and the place after it.
    pub fn handed(&self, job: &[u8], came: u64) -> Handed {
        let at = self.looked_at(came);
        if self.is_end(job, at) {
            return self.told_end(job, came);
        }
        let rest = job.get(at as usize..).unwrap_or_default();
        match self.whole(rest).filter(|entry| self.is_taken(job, at, entry)) {
            Some(entry) => self.told_entry(job, at, &entry),
            None => self.told_10(rest, came),
        }
    }

    /// The place that is looked at: the one that came, any of 64 bits.
    fn looked_at(&self, at: u64) -> u64 {
        match self.fault {
            Some(Fault::NextFrom7) => at.max(7),
            Some(Fault::NextLowHalf) => at & 0xffff_ffff,
            _ => at,
        }
    }

    fn is_end(&self, job: &[u8], at: u64) -> bool {
        let length = job.len() as u64;
        match self.fault {
            Some(Fault::NextEndEarly) => at >= length.saturating_sub(1),
            Some(Fault::NextEndLate) => at > length,
            Some(Fault::NextFar10) if at > u64::MAX - 6 => false,
            Some(Fault::NextPartIsEnd) => length.saturating_sub(at) < 6,
            Some(Fault::NextByCount) if job.len() >= 7 => at >= length.min(u64::from(end(job))),
            Some(Fault::Next3080) => at >= length.min(u64::from(PAST)),
            _ => at >= length,
        }
    }

    /// The entry of the first six bytes, where there are as many.
    fn whole(&self, rest: &[u8]) -> Option<Entry> {
        if self.has(Fault::NextPartTaken) {
            let mut six = [0; 6];
            six.iter_mut().zip(rest).for_each(|(place, byte)| *place = *byte);
            return Some(Entry::new(&six));
        }
        rest.get(..6).map(Entry::new)
    }

    /// Whether the entry's kind is one, and its value fits it.
    fn is_taken(&self, job: &[u8], at: u64, entry: &Entry) -> bool {
        let head = job.starts_with(&[0x4f, 0x54, 0x4a]);
        match self.fault {
            Some(Fault::NextKind2) => entry.is_good() || entry.kind == 2,
            Some(Fault::NextKindLow) => Entry {
                kind: entry.kind % 2,
                ..*entry
            }
            .is_good(),
            Some(Fault::Next65536) => entry.is_good() || (entry.kind == ECC && entry.value == 0x1_0000),
            Some(Fault::NextEccUnjudged) => entry.is_good() || entry.kind == ECC,
            Some(Fault::NextRawJudged) => entry.is_good() && entry.value <= 0xffff,
            Some(Fault::NextRowJudged) => entry.is_good() && entry.row < DATA_END,
            Some(Fault::NextBelow7) => entry.is_good() && at >= 7,
            Some(Fault::NextBetween) => entry.is_good() && at % u64::from(ENTRY) == u64::from(HEAD % ENTRY),
            Some(Fault::NextNeedsHead) => entry.is_good() && head,
            _ => entry.is_good(),
        }
    }

    fn told_end(&self, job: &[u8], came: u64) -> Handed {
        let at = match self.fault {
            Some(Fault::NextEndMoves) => job.len() as u64,
            _ => came,
        };
        let end = u32::from(!self.has(Fault::NextEndUnsaid));
        Handed {
            at,
            end,
            ..Handed::default()
        }
    }

    fn told_10(&self, rest: &[u8], came: u64) -> Handed {
        let refused = Handed {
            at: came,
            number: 10,
            ..Handed::default()
        };
        match (self.fault, rest.get(..6).map(Entry::new)) {
            (Some(Fault::NextMovesAt10), _) => Handed {
                at: came.saturating_add(6),
                ..refused
            },
            (Some(Fault::NextTellsAt10), Some(Entry { row, kind, value })) => Handed {
                row,
                kind: u32::from(kind),
                value,
                ..refused
            },
            (Some(Fault::NextEndAt10), _) => Handed { end: 1, ..refused },
            _ => refused,
        }
    }

    fn told_entry(&self, job: &[u8], at: u64, entry: &Entry) -> Handed {
        let after = at + 6;
        let last = after >= job.len() as u64;
        Handed {
            at: if self.has(Fault::NextStays) { at } else { after },
            number: 0,
            end: u32::from(last && self.has(Fault::NextEndWithLast)),
            row: entry.row,
            kind: u32::from(entry.kind),
            value: entry.value,
        }
    }
}
