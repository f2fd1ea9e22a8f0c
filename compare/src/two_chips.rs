//! Two chips side by side. Each call is made on both, by the library and by the model, and what it answers on the one is held against
//! what it answers on the other: that is all that a plug-in sees.

use std::iter::zip;

use crate::agreement::{disagreements, Side};
use crate::bench::{Bench, Difference, BUFFER};
use crate::call::{Call, Chip};
use crate::shape::{Answer, Beside, Outcome, State, ROWS};

/// What a chip holds before the calls: its rows, in the longer buffer that they lie in, how many of them are lent, its state.
#[derive(Clone)]
pub struct Board {
    pub rows: Vec<u32>,
    pub lent: usize,
    pub state: State,
}

impl Board {
    pub fn blank() -> Board {
        Board {
            rows: vec![0; BUFFER],
            lent: ROWS,
            state: State::blank(),
        }
    }

    pub fn side(&self) -> Side<'_> {
        Side {
            rows: &self.rows[..self.lent],
            state: &self.state,
        }
    }
}

pub struct TwoChips<'a> {
    pub first: Bench<'a>,
    pub second: Bench<'a>,
}

fn side<'a>(bench: &'a Bench) -> Side<'a> {
    Side {
        rows: &bench.rows()[..ROWS],
        state: &bench.state,
    }
}

fn lay(bench: &mut Bench, board: &Board) {
    bench.load(&board.rows);
    bench.state = board.state;
}

/// All that is answered, field by field: a card too, where one is read.
fn fields(seen: &Outcome) -> Vec<(&'static str, String)> {
    let mut fields = seen.answer.fields();
    if let Beside::Card(card) = &seen.beside {
        fields.extend(card.fields());
    }
    fields
}

/// The first field in which two answers differ.
fn unlike(first: &Outcome, second: &Outcome) -> String {
    let fields = zip(fields(first), fields(second)).find(|(one, other)| one != other);
    fields.map_or(String::new(), |((name, one), (_, other))| {
        format!("{name} {one} and {other}")
    })
}

impl<'a> TwoChips<'a> {
    /// The library is there twice, each with a chip of its own: so only what a call changes goes over to it.
    pub fn new(libraries: [&'a dyn Chip; 2], model: &'a dyn Chip) -> TwoChips<'a> {
        let [first, second] = libraries.map(|library| Bench::new(library, model));
        TwoChips { first, second }
    }

    pub fn lay_out(&mut self, [first, second]: &[Board; 2]) {
        lay(&mut self.first, first);
        lay(&mut self.second, second);
    }

    /// How many calls were made on both.
    pub fn calls(&self) -> u64 {
        self.first.counts.calls
    }

    pub fn sides(&self) -> [Side<'_>; 2] {
        [side(&self.first), side(&self.second)]
    }

    /// Makes a call on both, each with so many rows lent, and gives what came back of both.
    pub fn answers(&mut self, call: &Call, [first, second]: [usize; 2]) -> Result<[Outcome; 2], Difference> {
        let of = |chip: &str, Difference(line)| Difference(format!("on the {chip} chip {line}"));
        let one = self.first.made(call, first).map_err(|line| of("first", line))?;
        let other = self.second.made(call, second).map_err(|line| of("second", line))?;
        Ok([one, other])
    }

    /// Makes a call on both with as many rows lent, and holds the answers to each other.
    pub fn alike(&mut self, call: &Call, lent: usize) -> Result<Answer, Difference> {
        let [one, other] = self.answers(call, [lent, lent])?;
        if one.answer == other.answer && one.beside == other.beside {
            return Ok(one.answer);
        }
        let calls = self.calls();
        let (slice, rows) = (self.slice(call, lent), self.unlike_rows(call));
        let unlike = unlike(&one, &other);
        Err(Difference(format!(
            "call {calls} tells the chips apart: {call}{slice}: {unlike}{rows}"
        )))
    }

    /// Holds the chips to their agreement after what was done.
    pub fn agree(&self, done: &str) -> Result<(), Difference> {
        let [one, other] = self.sides();
        match disagreements(one, other).first() {
            None => Ok(()),
            Some(clause) => {
                let (calls, one, other) = (self.calls(), clause.shown(one), clause.shown(other));
                Err(Difference(format!(
                    "after call {calls} the chips do not agree: {done}: {clause}: {one} and {other}"
                )))
            }
        }
    }

    fn slice(&self, call: &Call, lent: usize) -> String {
        match call.takes_rows() {
            true => format!(" ({lent} rows)"),
            false => String::new(),
        }
    }

    /// What the chips hold now in those rows of the call in which they differ.
    fn unlike_rows(&self, call: &Call) -> String {
        let (first, count) = call.rows().unwrap_or_default();
        let (ours, theirs) = (self.first.rows(), self.second.rows());
        let rows = (first..first.saturating_add(count)).filter(|row| (*row as usize) < ROWS);
        let unlike = rows.filter(|row| ours[*row as usize] != theirs[*row as usize]);
        let told = unlike.map(|row| {
            let (one, other) = (ours[row as usize], theirs[row as usize]);
            format!("; row {row:#05x} holds {one:#08x} and {other:#08x}")
        });
        told.collect()
    }
}
