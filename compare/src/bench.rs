//! Makes each call on both sides and compares everything that comes back: the answer, the state, every row, a chunk's note and area, the
//! output of a job that is made, what the reader hands over, a repair pass's report, a card, and the area that its job is written in.

use crate::call::{Call, Chip};
use crate::card_kinds::{Asked, Burnt, Shown, ASKED, BURNT, SHOWN};
use crate::counts::Counts;
use crate::ends::Ends;
use crate::locks::{key_page, owner};
use crate::pair_kinds::{Made, Run, PAIRS, RUNS};
use crate::pass_kinds::{Again, Looked, Passed, AGAIN, LOOKED, PASSES};
use crate::shape::{Answer, Beside, Card, Handed, Lead, Outcome, State, ROWS};
use crate::tried::Tried;
use crate::walked::{Step, PLACES};
use crate::words::Words;

/// The rows lie in a longer buffer, so that a slice can be too long and a stray write is seen.
pub const BUFFER: usize = 4352;

/// The first difference, as one line.
#[derive(Debug)]
pub struct Difference(pub String);

pub struct Bench<'a> {
    library: &'a dyn Chip,
    model: &'a dyn Chip,
    theirs: Vec<u32>,
    ours: Vec<u32>,
    pub state: State,
    pub counts: Counts,
    pub ends: Ends,
    pub words: Words,
    pub pairs: Tried<Made>,
    pub runs: Tried<Run>,
    pub places: Tried<Step>,
    pub passes: Tried<Passed>,
    pub looked: Tried<Looked>,
    pub again: Tried<Again>,
    pub cards: Tried<Shown>,
    pub asked: Tried<Asked>,
    pub burnt: Tried<Burnt>,
}

impl<'a> Bench<'a> {
    pub fn new(library: &'a dyn Chip, model: &'a dyn Chip) -> Bench<'a> {
        Bench {
            library,
            model,
            theirs: vec![0; BUFFER],
            ours: vec![0; BUFFER],
            state: State::blank(),
            counts: Counts::default(),
            ends: Ends::default(),
            words: Words::default(),
            pairs: Tried::new(PAIRS),
            runs: Tried::new(RUNS),
            places: Tried::new(PLACES),
            passes: Tried::new(PASSES),
            looked: Tried::new(LOOKED),
            again: Tried::new(AGAIN),
            cards: Tried::new(SHOWN),
            asked: Tried::new(ASKED),
            burnt: Tried::new(BURNT),
        }
    }

    /// The rows, which are the same on both sides between calls.
    pub fn rows(&self) -> &[u32] {
        &self.theirs
    }

    /// Lays the same rows out on both sides.
    pub fn load(&mut self, rows: &[u32]) {
        self.theirs.copy_from_slice(rows);
        self.ours.copy_from_slice(rows);
    }

    /// Puts one entry into both sides' rows.
    pub fn put(&mut self, row: u32, entry: u32) {
        if let Some(place) = self.theirs.get_mut(row as usize) {
            *place = entry;
            self.ours[row as usize] = entry;
        }
    }

    /// Makes the call with a slice of the right length.
    pub fn call(&mut self, call: &Call) -> Result<Answer, Difference> {
        self.call_with(call, ROWS)
    }

    /// Makes the call with a slice of the given length.
    pub fn call_with(&mut self, call: &Call, length: usize) -> Result<Answer, Difference> {
        self.made(call, length).map(|made| made.answer)
    }

    /// Takes a chunk, and goes on with the note and the area that it leaves.
    pub fn take(&mut self, lead: &mut Lead, chunk: &[u8]) -> Result<Answer, Difference> {
        let call = Call::TakeChunk {
            lead: lead.clone(),
            chunk: chunk.to_vec(),
        };
        let made = self.made(&call, ROWS)?;
        if let Beside::Lead(left) = made.beside {
            *lead = left;
        }
        Ok(made.answer)
    }

    /// Makes a job of so many of the rows and of a wanted image, or of the rows twice, and leaves it in the output.
    pub fn make_job(
        &mut self,
        lent: usize,
        wanted: Option<Vec<u32>>,
        output: &mut Vec<u8>,
    ) -> Result<Answer, Difference> {
        let out = output.clone();
        let made = self.made(&Call::MakeJob { wanted, out }, lent)?;
        if let Beside::Output(left) = made.beside {
            *output = left;
        }
        Ok(made.answer)
    }

    /// Asks the reader what stands at a place of some bytes.
    pub fn next_entry(&mut self, job: &[u8], at: u64) -> Result<Handed, Difference> {
        let job = job.to_vec();
        match self.made(&Call::NextEntry { at, job }, ROWS)?.beside {
            Beside::Handed(handed) => Ok(handed),
            _ => Err(Difference("the reader hands nothing over".to_string())),
        }
    }

    /// Repairs the listed rows among so many, and leaves what is told of them in the report.
    pub fn repair(&mut self, lent: usize, list: &[u32], report: &mut Vec<u32>) -> Result<Answer, Difference> {
        let call = Call::Repair {
            report: report.clone(),
            list: list.to_vec(),
        };
        let made = self.made(&call, lent)?;
        if let Beside::Report(left) = made.beside {
            *report = left;
        }
        Ok(made.answer)
    }

    /// Reads the card among so many of the rows.
    pub fn read_card(&mut self, lent: usize) -> Result<Card, Difference> {
        match self.made(&Call::ReadCard {}, lent)?.beside {
            Beside::Card(card) => Ok(card),
            _ => Err(Difference("no card comes back".to_string())),
        }
    }

    /// Writes the job of a card, and leaves it in the area.
    pub fn write_card(&mut self, asked: &Card, area: &mut Vec<u8>) -> Result<Answer, Difference> {
        let call = Call::WriteCard {
            version: asked.version,
            width: asked.width,
            height: asked.height,
            line: asked.line,
            area: area.clone(),
        };
        let made = self.made(&call, ROWS)?;
        if let Beside::Output(left) = made.beside {
            *area = left;
        }
        Ok(made.answer)
    }

    /// Makes the call on both sides, and gives what came back.
    pub fn made(&mut self, call: &Call, length: usize) -> Result<Outcome, Difference> {
        let setting = match call {
            Call::ReadCard {} => self.card_setting(),
            _ => call.rows().map_or(String::new(), |(row, _)| self.setting(row)),
        };
        let theirs = self.library.make(call, &mut self.theirs[..length], self.state);
        let ours = self.model.make(call, &mut self.ours[..length], self.state);
        self.counts.note(call.index(), theirs.answer.number);
        let found = theirs.differs(&ours).or_else(|| self.row_differs());
        if let Some(found) = found {
            return Err(self.report(call, length, &setting, &found));
        }
        self.state = theirs.state;
        Ok(theirs)
    }

    fn row_differs(&self) -> Option<String> {
        if self.theirs == self.ours {
            return None;
        }
        let row = (0..BUFFER).find(|row| self.theirs[*row] != self.ours[*row])?;
        let (theirs, ours) = (self.theirs[row], self.ours[row]);
        Some(format!("rows[{row:#05x}]: library {theirs:#08x}, model {ours:#08x}"))
    }

    /// What a row held before the call, and how the page of its levels and the page of its keys and tally stood.
    fn setting(&self, row: u32) -> String {
        if row as usize >= ROWS {
            return String::new();
        }
        let (page, from) = (owner(row), key_page(None, row));
        let state = &self.state;
        let levels = [state.secure[page], state.nonsecure[page], state.bootloader[page]];
        let (write, read, nokey) = (state.writekey[from], state.readkey[from], state.nokey[from]);
        format!(
            " (the row held {:#08x}; page {page}: levels {levels:?}; page {from}: keys {write} {read}, no-key {nokey}, tally {})",
            self.theirs[row as usize], state.tallies[from]
        )
    }

    /// What the rows of a card held, and how their page stood.
    fn card_setting(&self) -> String {
        let held = self.theirs[0x0c0..0x0c6].iter().map(|entry| format!(" {entry:#08x}"));
        format!(
            " (from row 0x0c0 on:{}){}",
            held.collect::<String>(),
            self.setting(0x0c0)
        )
    }

    fn report(&self, call: &Call, length: usize, setting: &str, found: &str) -> Difference {
        let slice = if call.takes_rows() {
            format!(" ({length} rows)")
        } else {
            String::new()
        };
        let calls = self.counts.calls;
        Difference(format!("call {calls} differs: {call}{slice}{setting}: {found}"))
    }
}
