//! The shapes that cross the interface. What their fields are is written here and nowhere else.

use crate::part::{shape, Part};

/// How many rows a chip has.
pub const ROWS: usize = 4096;
/// How many pages it has, the rows of a page, and the bits of those rows.
pub const PAGES: usize = 64;
pub const PAGE_ROWS: usize = 64;
pub const PAGE_BITS: u32 = 1536;
/// The largest number that 24 bits hold.
pub const LARGEST: u32 = 0xff_ffff;
/// The first row that holds a lock word.
pub const LOCK_ROWS: u32 = 0xf80;

/// The bytes of a job of 512 entries, which an area must have room for, and how many a note counts where there were more.
pub const AREA: usize = 3079;
pub const PAST: u32 = 3080;

/// The callers, which are the domains of the locks too.
pub const SECURE: u32 = 0;
pub const NONSECURE: u32 = 1;
pub const BOOTLOADER: u32 = 2;
/// How many callers there are, and how many domains.
pub const CALLERS: u32 = 3;
pub const DOMAINS: u32 = 3;

/// The conditions of an ECC read.
pub const CLEAN: u32 = 0;
pub const REPAIRED: u32 = 1;
pub const FLAG_WORN: u32 = 2;
pub const FLAG_WORN_REPAIRED: u32 = 3;

/// The kinds of a report entry (request 2026-11).
pub const ROW_CLEAN: u32 = 0;
pub const ROW_MENDED: u32 = 1;
pub const ROW_WORN: u32 = 2;
pub const ROW_DAMAGED: u32 = 3;
pub const ROW_NOT_PERMITTED: u32 = 4;

/// The polarities of a row.
pub const PLAIN: u32 = 0;
pub const INVERTED: u32 = 1;

shape! {
    /// What every call answers. The bit is 0 where none was repaired; disagree is 1 where bits 23 and 22 of a row that was
    /// read with ECC disagreed, else 0.
    Answer {
        number: u32,
        value: u32,
        condition: u32,
        bit: u32,
        polarity: u32,
        disagree: u32,
        place: u32,
        pulses: u32,
    }
}

impl Answer {
    /// A refusal: a number, and nothing else, so plain and agreeing.
    pub fn refused(number: u32) -> Answer {
        Answer {
            number,
            ..Answer::default()
        }
    }

    /// Done, with a value.
    pub fn value(value: u32) -> Answer {
        Answer {
            value,
            ..Answer::default()
        }
    }

    /// Done, with the place and the pulses of a write, a job or a rehearsal.
    pub fn burnt(place: u32, pulses: u32) -> Answer {
        Answer {
            place,
            pulses,
            ..Answer::default()
        }
    }
}

shape! {
    /// A key as latched: its words, its valid flag, and whether all eight rows decoded.
    Key {
        words: [u16; 8],
        valid: bool,
        whole: bool,
    }
}

shape! {
    /// What the hardware holds between resets. Every state begins as the blank one, or comes from the library.
    State {
        secure: [u8; 64],
        nonsecure: [u8; 64],
        bootloader: [u8; 64],
        writekey: [u8; 64],
        readkey: [u8; 64],
        nokey: [bool; 64],
        keys: [Key; 6],
        entered: [u16; 8],
        tallies: [u16; PAGES],
    }
}

impl State {
    /// No lock, no key, nothing entered, nothing burnt.
    pub fn blank() -> State {
        State::default()
    }
}

shape! {
    /// What is noted of a job between its chunks: the bytes counted, the lowest row that may come next, and the bytes of the one entry
    /// that is begun. A fresh one is blank.
    Note {
        counted: u32,
        least: u32,
        part: [u8; 8],
    }
}

/// A job on its way over the lead: the note, and the lent area that keeps its bytes.
#[derive(Clone, Debug, PartialEq, Eq)]
pub struct Lead {
    pub note: Note,
    pub area: Vec<u8>,
}

impl Lead {
    /// Where the library's differs from the model's.
    fn differs(&self, ours: &Lead) -> Option<String> {
        let byte = || byte_differs(&self.area, &ours.area, "area");
        self.note.differs(&ours.note, "note").or_else(byte)
    }
}

shape! {
    /// What the reader hands over of a place in a job's bytes: the place after it, its number, 1 where the end is there, and an entry.
    Handed {
        at: u64,
        number: u32,
        end: u32,
        row: u32,
        kind: u32,
        value: u32,
    }
}

shape! {
    /// A card that is read: its number and, where that is 0, its version, width, height and the bytes in a line. One that is asked for has
    /// no number.
    Card {
        number: u32,
        version: u32,
        width: u32,
        height: u32,
        line: u32,
    }
}

impl Card {
    /// No card: a number, and nothing else.
    pub fn refused(number: u32) -> Card {
        Card {
            number,
            ..Card::default()
        }
    }
}

/// What comes back beside an answer: of a chunk the note and the area that it leaves, of a job that is made the output, of the reader what it
/// hands over, of a repair pass the report, and of a card's rows the card.
#[derive(Clone, Debug, PartialEq, Eq)]
pub enum Beside {
    Nothing,
    Lead(Lead),
    Output(Vec<u8>),
    Handed(Handed),
    Report(Vec<u32>),
    Card(Card),
}

impl Beside {
    /// Where the library's differs from the model's.
    fn differs(&self, ours: &Beside) -> Option<String> {
        match (self, ours) {
            (Beside::Lead(theirs), Beside::Lead(ours)) => theirs.differs(ours),
            (Beside::Output(theirs), Beside::Output(ours)) => byte_differs(theirs, ours, "output"),
            (Beside::Handed(theirs), Beside::Handed(ours)) => theirs.differs(ours, "entry"),
            (Beside::Report(theirs), Beside::Report(ours)) => told_differs(theirs, ours),
            (Beside::Card(theirs), Beside::Card(ours)) => theirs.differs(ours, "card"),
            _ => None,
        }
    }
}

/// The first byte in which the library's differ from the model's.
fn byte_differs(theirs: &[u8], ours: &[u8], name: &str) -> Option<String> {
    let mut bytes = theirs.iter().zip(ours).enumerate();
    let (place, (theirs, ours)) = bytes.find(|(_, (theirs, ours))| theirs != ours)?;
    Some(format!("{name}[{place}]: library {theirs:#04x}, model {ours:#04x}"))
}

/// The first report entry in which the library's differs from the model's.
fn told_differs(theirs: &[u32], ours: &[u32]) -> Option<String> {
    let mut entries = theirs.iter().zip(ours).enumerate();
    let (place, (theirs, ours)) = entries.find(|(_, (theirs, ours))| theirs != ours)?;
    Some(format!("report[{place}]: library {theirs:#06x}, model {ours:#06x}"))
}

/// What comes back of a call: its answer, the state afterwards, and what there is beside them. Of the reader and of a card the answer is its
/// number alone.
#[derive(Clone, Debug, PartialEq, Eq)]
pub struct Outcome {
    pub answer: Answer,
    pub state: State,
    pub beside: Beside,
}

impl Outcome {
    /// Of a call that gives back nothing else.
    pub fn new(answer: Answer, state: State) -> Outcome {
        let beside = Beside::Nothing;
        Outcome { answer, state, beside }
    }

    /// The first field in which the library's outcome differs from the model's.
    pub fn differs(&self, ours: &Outcome) -> Option<String> {
        if self == ours {
            return None;
        }
        let answer = self.answer.differs(&ours.answer, "answer");
        let state = || self.state.differs(&ours.state, "state");
        let beside = || self.beside.differs(&ours.beside);
        answer.or_else(state).or_else(beside)
    }
}
