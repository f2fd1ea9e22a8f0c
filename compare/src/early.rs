//! The early word (request 2026-01): what is wrong with a job, as far as a byte of it brings something to its end. 10 for the mark, the
//! version, the count, a byte past the count and an entry's form, 11 for an entry's row; else 0.

use crate::fault::Fault;
use crate::form::{number, Entry, DATA_END, MOST, RAW};
use crate::model::Model;
use crate::shape::{Lead, Note, AREA, LOCK_ROWS, PAST, ROWS};

/// The bytes of a job's head, and of an entry.
pub const HEAD: u32 = 7;
pub const ENTRY: u32 = 6;

const MARK: [u8; 3] = [0x4f, 0x54, 0x4a];

/// The version and the count that stand in the area, whoever put them there.
fn version(area: &[u8]) -> u32 {
    number(&area[3..5])
}

fn count(area: &[u8]) -> u32 {
    number(&area[5..7])
}

/// The first place past the entries that the area's count has.
pub fn end(area: &[u8]) -> u32 {
    HEAD + ENTRY * count(area)
}

/// The number where it is so, else no word.
fn said(it_is_so: bool, number: u32) -> u32 {
    if it_is_so {
        number
    } else {
        0
    }
}

impl Model {
    /// The word of a byte that stands at its place, or has none in the area. What is begun of an entry goes into the note, and an entry
    /// that is whole gives it its row, whatever is wrong with it.
    pub fn word(&self, lead: &mut Lead, place: u32, byte: u8) -> u32 {
        let Lead { note, area } = lead;
        let past = place >= HEAD && place >= end(area);
        match place {
            PAST => said(past && !self.has(Fault::PastOnce) && !self.has(Fault::PastUnsaid), 10),
            0..HEAD => {
                note.part = [0; 8];
                self.head_word(area, place)
            }
            _ if past => {
                self.begin_nothing(note, place, byte);
                said(!self.has(Fault::PastUnsaid), 10)
            }
            // The last place of all: an entry that began here would have no end.
            _ if place as usize == AREA => {
                note.part = [0; 8];
                0
            }
            _ => self.entry_byte(lead, place, byte),
        }
    }

    /// A byte of the head: each byte of the mark by itself, the version and the count at their second byte.
    fn head_word(&self, area: &[u8], place: u32) -> u32 {
        let most = MOST as u32 + u32::from(self.has(Fault::Early513));
        let wrong = match place {
            0 | 1 if self.has(Fault::MarkAtItsEnd) => false,
            2 if self.has(Fault::MarkAtItsEnd) => area[..3] != MARK,
            0..=2 => area[place as usize] != MARK[place as usize],
            3 => self.has(Fault::VersionAtLow) && !(1..=2).contains(&area[3]),
            4 => !(1..=2).contains(&version(area)),
            6 => count(area) > most,
            _ => false,
        };
        said(wrong, 10)
    }

    /// For a fault: whether some byte of the head that came was faulty.
    pub fn head_is_wrong(&self, lead: &Lead) -> bool {
        let mut head = 0..lead.note.counted.min(HEAD);
        head.any(|place| self.head_word(&lead.area, place) != 0)
    }

    /// A byte past the count begins no entry.
    fn begin_nothing(&self, note: &mut Note, place: u32, byte: u8) {
        let filled = ((place - HEAD) % ENTRY) as usize;
        note.part = [0; 8];
        if self.has(Fault::PartPastCount) && filled < 5 {
            note.part[filled] = byte;
        }
    }

    /// A byte of an entry: the next of those in the note, or the last.
    fn entry_byte(&self, lead: &mut Lead, place: u32, byte: u8) -> u32 {
        let Lead { note, area } = lead;
        let filled = ((place - HEAD) % ENTRY) as usize;
        note.part[filled] = byte;
        if !self.has(Fault::PartTail) {
            note.part[filled + 1..].fill(0);
        }
        let entry = Entry::new(&note.part[..6]);
        if filled < 5 {
            let raw = Entry { kind: RAW, ..entry };
            let judged = filled == 1 && self.has(Fault::RowAtOnce);
            return said(judged && !self.may_follow(version(area), note.least, &raw), 11);
        }
        note.part[..6].fill(0);
        let word = self.entry_word(version(area), note.least, &entry);
        note.least = self.least_after(note.least, &entry, word);
        match word {
            0 => said(self.has(Fault::PastTooSoon) && place + 1 == end(area), 10),
            word => word,
        }
    }

    /// The word of a whole entry: its form, then its row.
    fn entry_word(&self, version: u32, least: u32, entry: &Entry) -> u32 {
        let form = said(!entry.is_good(), 10);
        let order = said(!self.may_follow(version, least, entry), 11);
        match (form, order) {
            (10, 11) if self.has(Fault::EarlyOrderFirst) => 11,
            (0, order) => order,
            (form, _) => form,
        }
    }

    /// Whether an entry's row may come next: it is no lower than the least, and a data row, or in version 2 a raw entry's lock row.
    fn may_follow(&self, version: u32, least: u32, entry: &Entry) -> bool {
        let version = match (self.fault, version) {
            (Some(Fault::EarlyAsOne), 2) => 1,
            (Some(Fault::EarlyAsTwo), 1) => 2,
            (Some(Fault::UnknownAsTwo), 0 | 3..) => 2,
            _ => version,
        };
        let equal = entry.row == least && self.has(Fault::LeastIsAbove);
        let lock = version == 2 && entry.kind == RAW && (LOCK_ROWS..ROWS as u32).contains(&entry.row);
        entry.row >= least && !equal && (entry.row < DATA_END || lock)
    }

    /// The least row after an entry: the one above its own.
    fn least_after(&self, least: u32, entry: &Entry, word: u32) -> u32 {
        match self.fault {
            Some(Fault::LeastOfGood) if word == 11 => least,
            Some(Fault::LeastOfFormed) if word == 10 => least,
            Some(Fault::LeastRises) => least.max(entry.row + 1),
            _ => entry.row + 1,
        }
    }
}
