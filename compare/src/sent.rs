//! A job sent in chunks from a fresh note, into an area that only chunks write: what is promised of it (request 2026-01), held to the bytes
//! sent, the answers and the rows alone. It asks neither the library nor the model for its rule.
//!
//! The end does what running the joined bytes does, and announced again what running them again does. Where a chunk said 10 the end is 1 or
//! 10, where one said 11 it is 1, 10 or 11, and where none said anything the end is neither 10 nor 11, unless the job is cut short.

use crate::bench::{Bench, Difference};
use crate::call::Call;
use crate::shape::{Answer, Lead, Note, State, AREA, PAST};
use crate::two_chips::Board;

/// What was sent: its bytes, how they were cut, and the words that were said of them.
pub struct Sent {
    before: Vec<u8>,
    pub lead: Lead,
    pub bytes: Vec<u8>,
    pub lengths: Vec<usize>,
    pub words: Vec<u32>,
}

impl Sent {
    /// Nothing yet: a fresh note, and an area with whatever it held.
    pub fn new(area: &[u8]) -> Sent {
        Sent {
            before: area.to_vec(),
            lead: Lead {
                note: Note::default(),
                area: area.to_vec(),
            },
            bytes: Vec::new(),
            lengths: Vec::new(),
            words: Vec::new(),
        }
    }

    /// Sends a chunk.
    pub fn chunk(&mut self, bench: &mut Bench, chunk: &[u8]) -> Result<(), Difference> {
        let answer = bench.take(&mut self.lead, chunk)?;
        self.bytes.extend(chunk);
        self.lengths.push(chunk.len());
        if answer.value != 0 {
            self.words.push(answer.value);
        }
        let word = [0, 10, 11].contains(&answer.value) && answer == Answer::value(answer.value);
        self.agree(word, "a chunk is done, and its value is 0, 10 or 11")?;
        self.agree(!chunk.is_empty() || answer.value == 0, "an empty chunk says nothing")
    }

    /// Sends bytes in chunks of these lengths.
    pub fn chunks(&mut self, bench: &mut Bench, bytes: &[u8], lengths: &[usize]) -> Result<(), Difference> {
        let mut rest = bytes;
        for length in lengths {
            let (chunk, after) = rest.split_at(*length);
            self.chunk(bench, chunk)?;
            rest = after;
        }
        Ok(())
    }

    /// Whether entries that the count has did not come, or not all of the head.
    pub fn cut_short(&self) -> bool {
        let count = |bytes: &[u8]| usize::from(bytes[5]) + 256 * usize::from(bytes[6]);
        self.bytes.len() < 7 || self.bytes.len() < 7 + 6 * count(&self.bytes)
    }

    /// The area holds what was sent, as far as 3,079 bytes go, and behind that what it held before.
    fn kept(&self) -> Result<(), Difference> {
        let kept = self.bytes.len().min(AREA);
        let (sent, behind) = self.lead.area.split_at(kept);
        self.agree(sent == &self.bytes[..kept], "the area holds the bytes sent")?;
        self.agree(
            behind == &self.before[kept..],
            "the area's other bytes are as they were",
        )?;
        let counted = self.bytes.len().min(PAST as usize);
        self.agree(
            self.lead.note.counted as usize == counted,
            "the note counts the bytes sent",
        )
    }

    /// What the words said is true of the end, and what they did not say.
    fn foretold(&self, number: u32) -> Result<(), Difference> {
        let (ten, eleven) = (self.words.contains(&10), self.words.contains(&11));
        self.agree(!ten || [1, 10].contains(&number), "after a 10 the end is 1 or 10")?;
        self.agree(
            !eleven || [1, 10, 11].contains(&number),
            "after an 11 the end is 1, 10 or 11",
        )?;
        let silent = !ten && !eleven && !self.cut_short();
        self.agree(
            !silent || ![10, 11].contains(&number),
            "a job that is not cut short and ends with 10 or 11 was warned of",
        )
    }

    fn agree(&self, holds: bool, what: &str) -> Result<(), Difference> {
        if holds {
            return Ok(());
        }
        let call = Call::RunJob {
            job: self.bytes.clone(),
        };
        Err(Difference(format!(
            "a job sent in chunks fails: {call}, in chunks of {:?}, words {:?}: this does not hold: {what}",
            self.lengths, self.words
        )))
    }
}

/// What a call left of a board.
struct Left {
    answer: Answer,
    state: State,
    rows: Vec<u32>,
}

impl Left {
    /// In what it is not as another.
    fn unlike(&self, other: &Left) -> Option<&'static str> {
        let same = [
            (self.answer == other.answer, "answer"),
            (self.state == other.state, "state"),
            (self.rows == other.rows, "rows"),
        ];
        same.into_iter().find(|(same, _)| !same).map(|(_, name)| name)
    }
}

/// What a call leaves of a board, and what it leaves when it is made again.
fn twice(bench: &mut Bench, board: &Board, call: &Call) -> Result<[Left; 2], Difference> {
    let mut left = || {
        let answer = bench.call_with(call, board.lent)?;
        let (state, rows) = (bench.state, bench.rows().to_vec());
        Ok(Left { answer, state, rows })
    };
    Ok([left()?, left()?])
}

/// A board, and what running a whole file does to it.
pub struct Whole<'a> {
    board: &'a Board,
    file: Vec<u8>,
    left: [Left; 2],
}

impl<'a> Whole<'a> {
    pub fn new(bench: &mut Bench, board: &'a Board, file: &[u8]) -> Result<Whole<'a>, Difference> {
        lay_out(bench, board);
        let file = file.to_vec();
        let left = twice(bench, board, &Call::RunJob { job: file.clone() })?;
        Ok(Whole { board, file, left })
    }

    /// Announces the end of the same file sent in chunks, and holds all that it leaves to the whole one.
    pub fn end(&self, bench: &mut Bench, sent: &Sent) -> Result<(), Difference> {
        lay_out(bench, self.board);
        let lead = sent.lead.clone();
        let left = twice(bench, self.board, &Call::EndJob { lead })?;
        let number = left[0].answer.number;
        sent.agree(sent.bytes == self.file, "all of the file was sent")?;
        sent.kept()?;
        for ((end, run), again) in left.iter().zip(&self.left).zip(["", " again"]) {
            let what = end.unlike(run).unwrap_or_default();
            sent.agree(
                what.is_empty(),
                &format!("the end{again} gives the {what} of the whole file{again}"),
            )?;
        }
        sent.foretold(number)?;
        bench.words.note(sent, number);
        Ok(())
    }

    /// Sends the file in chunks of these lengths, into an area that held these bytes, and ends it.
    pub fn sent(&self, bench: &mut Bench, area: &[u8], lengths: &[usize]) -> Result<(), Difference> {
        let mut sent = Sent::new(area);
        sent.chunks(bench, &self.file, lengths)?;
        self.end(bench, &sent)
    }
}

fn lay_out(bench: &mut Bench, board: &Board) {
    bench.load(&board.rows);
    bench.state = board.state;
}
