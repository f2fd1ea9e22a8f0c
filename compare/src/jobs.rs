//! Jobs of either version: their judging entry by entry, and their burning pulse by pulse.

use crate::fault::Fault;
use crate::form::{Entry, ECC};
use crate::ladder::need;
use crate::locks::{latch, owner};
use crate::model::Model;
use crate::permission::may_write;
use crate::row::{bit, within};
use crate::shape::{Answer, Outcome, State, LARGEST, LOCK_ROWS, ROWS, SECURE};
use crate::tallies::{kept, Named};

/// What an entry burns: the bits that are to stand in its row.
struct Burn {
    row: usize,
    bits: u32,
}

impl Burn {
    fn at_lock(&self) -> bool {
        self.row >= LOCK_ROWS as usize
    }
}

impl Model {
    /// Judges one entry: 7, then 3, then 9.
    fn judge(&self, rows: &[u32], state: &State, entry: &Entry) -> Result<Burn, u32> {
        // Only a fault lets a row above 4,095 come here.
        let row = entry.row as usize % ROWS;
        let old = rows[row];
        need(old <= LARGEST || !self.has(Fault::SizeFirst), 3)?;
        need(self.may_burn(state, row as u32), 7)?;
        need(old <= LARGEST, 3)?;
        let bits = match entry.kind {
            ECC => self.codes.polarity(entry.value, old).ok_or(9u32)?,
            _ => entry.value,
        };
        Ok(Burn { row, bits })
    }

    /// Whether Secure may write the row. A lock row goes by its own word's Secure level and by page 62's or 63's keys.
    fn may_burn(&self, state: &State, row: u32) -> bool {
        let fault = match self.fault {
            Some(Fault::JobLockUnjudged) if row >= LOCK_ROWS => return true,
            Some(Fault::JobLockOwnWord) => Some(Fault::LockRowOwnWord),
            other => other,
        };
        may_write(fault, state, SECURE, row)
    }

    /// Runs a job, or with a limit rehearses it.
    pub fn job(&self, rows: &mut [u32], state: &State, job: &[u8], limit: Option<u32>) -> Result<Outcome, u32> {
        need(rows.len() == ROWS, 1)?;
        let list = self.taken_apart(job)?.entries;
        let mut burns = Vec::new();
        for (place, entry) in list.iter().enumerate() {
            let latched = match self.has(Fault::LockRefusesLater) {
                true => latched_anew(rows, state, &burns),
                false => *state,
            };
            match self.judge(rows, &latched, entry) {
                Ok(burn) => burns.push(burn),
                Err(number) => return Ok(self.refused_at(rows, state, &burns, limit, place as u32, number)),
            }
        }
        let old: Vec<u32> = burns.iter().map(|burn| rows[burn.row]).collect();
        let answer = self.burnt(rows, &burns, limit);
        let state = self.left(rows, state, &burns, &old, limit);
        Ok(Outcome::new(answer, state))
    }

    /// The state that a done job leaves: nothing latched changes but the tallies.
    fn left(&self, rows: &[u32], state: &State, burns: &[Burn], old: &[u32], limit: Option<u32>) -> State {
        let named = named(burns, old, rows);
        match self.fault {
            Some(Fault::RehearsalUncount) if limit.is_some() => *state,
            Some(Fault::JobLatches) => kept(None, &latched_anew(rows, state, burns), &named),
            Some(Fault::JobTallyLockWord) => kept(Some(Fault::TallyByLockWord), state, &named),
            fault => kept(fault, state, &named),
        }
    }

    /// The refusal of an entry: nothing is burnt and nothing is counted, also of the entries before it.
    fn refused_at(
        &self,
        rows: &mut [u32],
        state: &State,
        judged: &[Burn],
        limit: Option<u32>,
        place: u32,
        number: u32,
    ) -> Outcome {
        let mut state = *state;
        if self.has(Fault::CountAsJudged) {
            let old: Vec<u32> = judged.iter().map(|burn| rows[burn.row]).collect();
            let mut as_if = rows.to_vec();
            self.burn(&mut as_if, judged, limit);
            state = kept(self.fault, &state, &named(judged, &old, &as_if));
        }
        if self.has(Fault::BurnAsJudged) {
            self.burn(rows, judged, limit);
        }
        let answer = Answer {
            place,
            ..Answer::refused(number)
        };
        Outcome::new(answer, state)
    }

    /// Burns what was judged, and says how far that came.
    fn burnt(&self, rows: &mut [u32], burns: &[Burn], limit: Option<u32>) -> Answer {
        let target: u32 = burns.iter().map(|burn| burn.bits.count_ones()).sum();
        let (mut pulses, last) = self.burn(rows, burns, limit);
        let mut place = standing(rows, burns);
        if self.has(Fault::PulsesOfTarget) {
            pulses = target.min(limit.unwrap_or(target));
        }
        if self.has(Fault::PlaceAtLimit) && limit == Some(pulses) {
            place = place.min(last);
        }
        if self.has(Fault::PlaceDataOnly) {
            place = place.min(burns.iter().filter(|burn| !burn.at_lock()).count() as u32);
        }
        Answer::burnt(place, pulses)
    }

    /// Burns one bit at a time, lowest first, until all stand or the limit is reached.
    /// Gives the pulses, and the entry of the last pulse counted from 1.
    fn burn(&self, rows: &mut [u32], burns: &[Burn], limit: Option<u32>) -> (u32, u32) {
        let (mut pulses, mut last) = (0, 0);
        let mut order: Vec<(usize, &Burn)> = burns.iter().enumerate().collect();
        if self.has(Fault::LocksFirst) {
            order.sort_by_key(|(_, burn)| !burn.at_lock());
        }
        for (i, burn) in order {
            let whole = self.has(Fault::CutLockWhole) && burn.at_lock();
            let from = pulses;
            for step in 0..24 {
                let place = if self.has(Fault::BitsDownward) { 23 - step } else { step };
                if !bit(burn.bits, place) || bit(rows[burn.row], place) {
                    continue;
                }
                if limit.is_some_and(|limit| pulses >= limit) && !(whole && pulses > from) {
                    return (pulses, last);
                }
                rows[burn.row] |= 1 << place;
                pulses += 1;
                last = i as u32 + 1;
            }
        }
        (pulses, last)
    }
}

/// The rows that a job names: those of all its entries, with what they held before it and hold now.
fn named(burns: &[Burn], old: &[u32], rows: &[u32]) -> Vec<Named> {
    let each = burns.iter().zip(old).map(|(burn, old)| Named {
        row: burn.row as u32,
        old: *old,
        new: rows[burn.row],
        whole: old | burn.bits,
    });
    each.collect()
}

/// For faults: the state with the lock words of these burns latched as they will be.
fn latched_anew(rows: &[u32], state: &State, burns: &[Burn]) -> State {
    let (mut rows, mut state) = (rows.to_vec(), *state);
    for burn in burns.iter().filter(|burn| burn.at_lock()) {
        rows[burn.row] |= burn.bits;
        latch(None, &rows, owner(burn.row as u32), &mut state);
    }
    state
}

/// How many leading entries have all their bits standing.
fn standing(rows: &[u32], burns: &[Burn]) -> u32 {
    burns
        .iter()
        .take_while(|burn| within(burn.bits, rows[burn.row]))
        .count() as u32
}
