//! The form of a job: its bytes taken apart, and which rows it may have in which order, by its version (request 2026-09).

use crate::fault::Fault;
use crate::ladder::need;
use crate::model::Model;
use crate::shape::{LOCK_ROWS, ROWS};

/// The data rows of a job end before this one.
pub const DATA_END: u32 = 0xf40;
/// The largest count of a job file.
pub const MOST: usize = 512;
/// The kinds of an entry.
pub const ECC: u8 = 0;
pub const RAW: u8 = 1;

/// One entry as the file gives it.
#[derive(Clone, Copy, Debug, PartialEq, Eq)]
pub struct Entry {
    pub row: u32,
    pub kind: u8,
    pub value: u32,
}

impl Entry {
    /// The entry of six bytes.
    pub fn new(part: &[u8]) -> Entry {
        Entry {
            row: number(&part[0..2]),
            kind: part[2],
            value: number(&part[3..6]),
        }
    }

    /// Whether its kind is one, and its value fits it.
    pub fn is_good(&self) -> bool {
        self.kind == RAW || (self.kind == ECC && self.value <= 0xffff)
    }
}

/// A job as its file gives it.
pub struct Job {
    version: u32,
    pub entries: Vec<Entry>,
}

/// The number of some bytes, low byte first.
pub fn number(bytes: &[u8]) -> u32 {
    bytes.iter().rev().fold(0, |high, byte| high * 256 + u32::from(*byte))
}

impl Model {
    /// Takes the bytes apart, and refuses with 10, then with 11.
    pub fn taken_apart(&self, file: &[u8]) -> Result<Job, u32> {
        let job = self.split(file)?;
        if self.has(Fault::OrderFirst) {
            self.in_order(&job)?;
        }
        let judged = job.version == 2 && self.has(Fault::EccLock10);
        let ecc_lock = |entry: &Entry| judged && entry.row >= LOCK_ROWS && entry.kind == ECC;
        need(job.entries.iter().all(|entry| entry.is_good() && !ecc_lock(entry)), 10)?;
        self.in_order(&job)?;
        Ok(job)
    }

    /// The refusals that look at no entry: 10 for a short file, its mark, version, count and length.
    fn split(&self, file: &[u8]) -> Result<Job, u32> {
        need(file.len() >= 7, 10)?;
        need(file[0..3] == [0x4f, 0x54, 0x4a], 10)?;
        let version = match self.fault {
            Some(Fault::VersionLowByte) => number(&file[3..4]),
            _ => number(&file[3..5]),
        };
        need(self.is_version(version), 10)?;
        let count = number(&file[5..7]) as usize;
        need(count <= MOST, 10)?;
        need(file.len() == 7 + 6 * count, 10)?;
        let entries = file[7..].chunks(6).map(Entry::new).collect();
        Ok(Job { version, entries })
    }

    fn is_version(&self, version: u32) -> bool {
        match self.fault {
            Some(Fault::Version3) => (1..=3).contains(&version),
            Some(Fault::Version2Refused) => version == 1,
            _ => version == 1 || version == 2,
        }
    }

    /// Refuses with 11 unless the rows are as the version has them.
    fn in_order(&self, job: &Job) -> Result<(), u32> {
        let version = match self.fault {
            Some(Fault::Version1AsTwo) => 2,
            Some(Fault::Version2AsOne) => 1,
            _ => job.version,
        };
        match version {
            1 => self.version_1(&job.entries),
            _ => self.version_2(&job.entries),
        }
    }

    /// Every row is below 0xf40 and above the row before it.
    fn version_1(&self, list: &[Entry]) -> Result<(), u32> {
        need(list.iter().all(|entry| entry.row < DATA_END), 11)?;
        self.rising(list)
    }

    /// Data rows first, rising and below 0xf40, then raw entries for lock rows, rising from 0xf80.
    fn version_2(&self, list: &[Entry]) -> Result<(), u32> {
        let (data, locks) = self.data_and_locks(list);
        self.rising(&data)?;
        for entry in &locks {
            self.lock_entry(entry)?;
        }
        let missed = |part: &[Entry], fault| part.is_empty() && !list.is_empty() && self.has(fault);
        need(!missed(&locks, Fault::NoLocksRefused), 11)?;
        need(!missed(&data, Fault::NoDataRefused), 11)?;
        match self.has(Fault::LocksFall) {
            true => Ok(()),
            false => self.rising(&locks),
        }
    }

    /// The entries up to the first that is at no data row, and those from it on.
    fn data_and_locks(&self, list: &[Entry]) -> (Vec<Entry>, Vec<Entry>) {
        let end = DATA_END + u32::from(self.has(Fault::RowF40Taken));
        if self.has(Fault::DataAfterLock) {
            return list.iter().partition(|entry| entry.row < end);
        }
        let first = list.iter().position(|entry| entry.row >= end).unwrap_or(list.len());
        (list[..first].to_vec(), list[first..].to_vec())
    }

    /// A lock row's entry is raw, and its row from 0xf80 to 4,095.
    fn lock_entry(&self, entry: &Entry) -> Result<(), u32> {
        let first = LOCK_ROWS - u32::from(self.has(Fault::RowF7fTaken));
        let end = ROWS as u32 + u32::from(self.has(Fault::Row4096Taken));
        need(entry.row >= first, 11)?;
        need(entry.row < end, if self.has(Fault::RowAbove2) { 2 } else { 11 })?;
        need(entry.kind == RAW || self.has(Fault::EccLockTaken), 11)
    }

    /// Each row is above the row before it.
    fn rising(&self, list: &[Entry]) -> Result<(), u32> {
        let same = |pair: &[Entry]| pair[1].row == pair[0].row && self.has(Fault::EqualRows);
        need(list.windows(2).all(|pair| pair[1].row > pair[0].row || same(pair)), 11)
    }
}
