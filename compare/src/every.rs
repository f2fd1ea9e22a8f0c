//! Every row value read with ECC, and every ECC value written over each row that has at most one bit set.

use crate::bench::Difference;
use crate::call::{Call, Chip};
use crate::part::Part;
use crate::shape::{State, LARGEST, ROWS, SECURE};

/// The row used: any page without locks would do.
const ROW: u32 = 0x0c0;
/// How many row values are read with one request: as many as the driver takes.
const BLOCK: u32 = 0x1_0000;

/// Compares the reads, and gives how many calls that was.
pub fn every_read(library: &dyn Chip, model: &dyn Chip) -> Result<u64, Difference> {
    let mut calls = 0;
    for first in (0..=LARGEST).step_by(BLOCK as usize) {
        let block = first..first + BLOCK;
        let theirs = library.read_each(ROW, block.clone());
        let ours = model.read_each(ROW, block.clone());
        for (entry, (theirs, ours)) in block.zip(theirs.iter().zip(&ours)) {
            calls += 1;
            if theirs != ours {
                let found = theirs.differs(ours, "answer").unwrap_or_default();
                let call = Call::ReadEcc {
                    caller: SECURE,
                    row: ROW,
                };
                return Err(difference(&call, entry, &found));
            }
        }
    }
    Ok(calls)
}

/// Compares the writes, and gives how many calls that was.
pub fn every_write(library: &dyn Chip, model: &dyn Chip) -> Result<u64, Difference> {
    let mut sides = Sides {
        library,
        model,
        theirs: vec![0; ROWS],
        ours: vec![0; ROWS],
        calls: 0,
    };
    for value in 0..=0xffff {
        let write = Call::WriteEcc {
            caller: SECURE,
            row: ROW,
            value,
        };
        sides.compare(&write, 0)?;
        for place in 0..24 {
            sides.compare(&write, 1 << place)?;
        }
    }
    Ok(sides.calls)
}

fn difference(call: &Call, entry: u32, found: &str) -> Difference {
    Difference(format!("differs: {call} (the row held {entry:#08x}): {found}"))
}

struct Sides<'a> {
    library: &'a dyn Chip,
    model: &'a dyn Chip,
    theirs: Vec<u32>,
    ours: Vec<u32>,
    calls: u64,
}

impl Sides<'_> {
    fn compare(&mut self, call: &Call, entry: u32) -> Result<(), Difference> {
        self.theirs[ROW as usize] = entry;
        self.ours[ROW as usize] = entry;
        let theirs = self.library.make(call, &mut self.theirs, State::blank());
        let ours = self.model.make(call, &mut self.ours, State::blank());
        self.calls += 1;
        let (left, right) = (self.theirs[ROW as usize], self.ours[ROW as usize]);
        let rows = (left != right).then(|| format!("the row: library {left:#08x}, model {right:#08x}"));
        match theirs.differs(&ours).or(rows) {
            Some(found) => Err(difference(call, entry, &found)),
            None => Ok(()),
        }
    }
}
