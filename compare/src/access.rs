//! The calls on rows: for each a ladder of refusals in the order of document 01's table, and what is done at its foot.

use crate::fault::Fault;
use crate::keys::hidden;
use crate::ladder::need;
use crate::model::Model;
use crate::permission::{may_read, may_write};
use crate::row::{newly_set, vote};
use crate::shape::{Answer, Outcome, State, LARGEST, LOCK_ROWS, ROWS};
use crate::tallies::{kept, Named};
use crate::wear::{decoded, other, undecoded};

impl Model {
    /// The refusals that one row meets once its number is good: 6, 7, 3. Gives the row's entry.
    fn entry(&self, rows: &[u32], state: &State, row: u32, allowed: bool) -> Result<u32, u32> {
        let entry = rows[row as usize];
        need(entry <= LARGEST || !self.has(Fault::SizeFirst), 3)?;
        let shows = entry == 0 && self.has(Fault::HiddenIfBurnt);
        need(!hidden(state, row) || shows, 6)?;
        need(allowed, 7)?;
        need(entry <= LARGEST, 3)?;
        Ok(entry)
    }

    fn entry_to_read(&self, rows: &[u32], state: &State, caller: u32, row: u32) -> Result<u32, u32> {
        self.entry(rows, state, row, may_read(self.fault, state, caller, row))
    }

    fn entry_to_write(&self, rows: &[u32], state: &State, caller: u32, row: u32) -> Result<u32, u32> {
        self.entry(rows, state, row, may_write(self.fault, state, caller, row))
    }

    pub fn raw_read(&self, rows: &[u32], state: &State, caller: u32, row: u32) -> Result<Answer, u32> {
        need(rows.len() == ROWS, 1)?;
        need(self.is_caller(caller), 4)?;
        need(row <= 4095, 2)?;
        let entry = self.entry_to_read(rows, state, caller, row)?;
        Ok(other(self.fault, Fault::RawFlags, entry, Answer::value(entry)))
    }

    pub fn ecc_read(&self, rows: &[u32], state: &State, caller: u32, row: u32) -> Result<Answer, u32> {
        need(rows.len() == ROWS, 1)?;
        need(self.is_caller(caller), 4)?;
        need(row <= 4095, 2)?;
        need(row < LOCK_ROWS, 5)?;
        let entry = self.entry_to_read(rows, state, caller, row)?;
        match self.codes.decode(entry) {
            Some(near) => Ok(decoded(self.fault, entry, near)),
            None => undecoded(self.fault, entry),
        }
    }

    pub fn vote(&self, rows: &[u32], state: &State, caller: u32, row: u32, count: u32) -> Result<u32, u32> {
        need(rows.len() == ROWS, 1)?;
        need(self.is_caller(caller), 4)?;
        need(count == 3 || count == 8, 4)?;
        let end = u64::from(row) + u64::from(count);
        need(end <= 4096, 2)?;
        need(end <= u64::from(LOCK_ROWS), 5)?;
        let group = row..row + count;
        if self.has(Fault::VoteByNumber) {
            need(!group.clone().any(|row| hidden(state, row)), 6)?;
            need(group.clone().all(|row| may_read(self.fault, state, caller, row)), 7)?;
        }
        if self.has(Fault::VoteSizesFirst) {
            need(group.clone().all(|row| rows[row as usize] <= LARGEST), 3)?;
        }
        let mut taken = Vec::new();
        for row in group {
            taken.push(self.entry_to_read(rows, state, caller, row)?);
        }
        Ok(vote(self.fault, &taken))
    }

    /// What a raw write leaves in the row, and its refusals.
    pub fn raw_write(&self, rows: &[u32], state: &State, caller: u32, row: u32, value: u32) -> Result<u32, u32> {
        need(rows.len() == ROWS, 1)?;
        need(self.is_caller(caller), 4)?;
        need(value <= LARGEST, 4)?;
        need(row <= 4095, 2)?;
        let old = self.entry_to_write(rows, state, caller, row)?;
        Ok(old | value)
    }

    /// What an ECC write leaves in the row, and its refusals.
    pub fn ecc_write(&self, rows: &[u32], state: &State, caller: u32, row: u32, value: u32) -> Result<u32, u32> {
        need(rows.len() == ROWS, 1)?;
        need(self.is_caller(caller), 4)?;
        need(value <= 0xffff, 4)?;
        need(row <= 4095, 2)?;
        need(row < LOCK_ROWS, 5)?;
        let old = self.entry_to_write(rows, state, caller, row)?;
        self.codes.polarity(value, old).ok_or(9)
    }

    /// Leaves the new row, counts the bits newly set, and keeps the tally of the row's page.
    pub fn write(&self, rows: &mut [u32], state: &State, row: u32, new: u32) -> Outcome {
        let old = rows[row as usize];
        rows[row as usize] = new;
        let counted = if self.has(Fault::PulsesOfTarget) { 0 } else { old };
        let burnt = Answer::burnt(0, newly_set(counted, new));
        let whole = new;
        Outcome::new(
            other(self.fault, Fault::WriteFlags, new, burnt),
            kept(self.fault, state, &[Named { row, old, new, whole }]),
        )
    }
}
