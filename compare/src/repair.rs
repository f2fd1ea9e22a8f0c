//! The repair pass (request 2026-11): each listed row is looked at by itself, one that lost a single 1 gets it burnt, and the report says of each
//! what it was.

use crate::fault::Fault;
use crate::form::{DATA_END, MOST};
use crate::ladder::need;
use crate::mending::{Listed, Told};
use crate::model::Model;
use crate::shape::{Answer, Beside, Outcome, State, LARGEST, LOCK_ROWS, REPAIRED, ROWS};
use crate::tallies::{kept, Named};

impl Model {
    /// Makes the pass: burns what can be mended, and gives the report with an entry for each listed row in front.
    pub fn repaired(&self, rows: &mut [u32], state: &State, list: &[u32], report: &[u32]) -> Result<Outcome, u32> {
        for number in self.pass_rungs() {
            let refused = self.is_ground(number, rows, state, list, report.len());
            if refused && number == 3 && self.has(Fault::RepairBurnsAsJudged) {
                burn(rows, &self.before_oversized(rows, state, list));
            }
            need(!refused, self.said_for(number, list))?;
        }
        let listed = self.listed(rows, state, list);
        burn(rows, &listed);
        Ok(Outcome {
            answer: self.counted(&listed),
            state: self.tallied(state, &listed),
            beside: Beside::Report(self.written(&listed, list, report)),
        })
    }

    /// The refusals in their order.
    fn pass_rungs(&self) -> [u32; 4] {
        match self.fault {
            Some(Fault::Repair11Before1) => [11, 1, 12, 3],
            Some(Fault::Repair12Before1) => [12, 1, 11, 3],
            Some(Fault::Repair12Before11) => [1, 12, 11, 3],
            Some(Fault::Repair3Before11) => [1, 3, 11, 12],
            Some(Fault::Repair3Before12) => [1, 11, 3, 12],
            _ => [1, 11, 12, 3],
        }
    }

    /// The number of a refusal: only faults say another.
    fn said_for(&self, number: u32, list: &[u32]) -> u32 {
        match self.fault {
            Some(Fault::Repair2Above) if number == 11 && list.iter().any(|row| *row as usize >= ROWS) => 2,
            Some(Fault::Repair512) if number == 12 && list.len() > MOST => 14,
            _ => number,
        }
    }

    /// Whether there is ground for this refusal, whatever else there is.
    fn is_ground(&self, number: u32, rows: &[u32], state: &State, list: &[u32], room: usize) -> bool {
        match number {
            1 => rows.len() != ROWS,
            11 => self.is_no_list(list),
            12 => self.is_too_short(room, list.len()),
            _ => self.has_oversized(rows, state, list),
        }
    }

    /// A row from 0xf40 up, or one that is not above the row before it.
    fn is_no_list(&self, list: &[u32]) -> bool {
        let end = match self.fault {
            Some(Fault::RepairF40Taken) => DATA_END + 1,
            Some(Fault::RepairF3fRefused) => DATA_END - 1,
            Some(Fault::RepairToLocks) => LOCK_ROWS,
            _ => DATA_END,
        };
        let falls = |pair: &[u32]| match self.fault {
            Some(Fault::RepairEqualTaken) => pair[1] < pair[0],
            Some(Fault::RepairFallsTaken) => pair[1] == pair[0],
            _ => pair[1] <= pair[0],
        };
        let empty = list.is_empty() && self.has(Fault::RepairEmptyRefused);
        empty || list.iter().any(|row| *row >= end) || list.windows(2).any(falls)
    }

    /// The report is shorter than the list.
    fn is_too_short(&self, room: usize, count: usize) -> bool {
        match self.fault {
            Some(Fault::RepairShortTaken) => room + 1 < count,
            Some(Fault::RepairRoomToSpare) => room <= count,
            Some(Fault::RepairRoomExact) => room != count,
            Some(Fault::Repair512) => room < count || count > MOST,
            _ => room < count,
        }
    }

    /// A listed row that Secure may write holds more than 24 bits.
    fn has_oversized(&self, rows: &[u32], state: &State, list: &[u32]) -> bool {
        let large = |row: &u32| rows.get(*row as usize).is_some_and(|entry| *entry > LARGEST);
        match self.fault {
            Some(Fault::Repair3Damaged) => false,
            Some(Fault::Repair3AnyListed) => list.iter().any(large),
            Some(Fault::Repair3Unlisted) => (0..DATA_END).any(|row| large(&row) && self.may_mend(state, row)),
            Some(Fault::Repair3First) => list.iter().take(1).any(|row| large(row) && self.may_mend(state, *row)),
            _ => list.iter().any(|row| large(row) && self.may_mend(state, *row)),
        }
    }

    /// The listed rows, each looked at by itself.
    fn listed(&self, rows: &[u32], state: &State, list: &[u32]) -> Vec<Listed> {
        let each = list.iter().map(|row| {
            let old = rows[*row as usize];
            let told = self.said_of(old, self.may_mend(state, *row));
            Listed { row: *row, old, told }
        });
        let mut listed: Vec<Listed> = each.collect();
        if self.has(Fault::RepairStops) {
            let locked = listed.iter().position(|one| one.told == Told::NotPermitted);
            listed.truncate(locked.map_or(listed.len(), |place| place + 1));
        }
        listed
    }

    /// For a fault: the listed rows up to the first that is oversized.
    fn before_oversized(&self, rows: &[u32], state: &State, list: &[u32]) -> Vec<Listed> {
        let large = |row: &u32| rows[*row as usize] > LARGEST && self.may_mend(state, *row);
        let end = list.iter().position(large).unwrap_or(list.len());
        self.listed(rows, state, &list[..end])
    }

    /// What a pass answers: the rows mended, one pulse each.
    fn counted(&self, listed: &[Listed]) -> Answer {
        let mended = listed.iter().filter(|one| one.is_mended()).count() as u32;
        let all = listed.len() as u32;
        let sound = Answer::burnt(0, mended);
        match self.fault {
            Some(Fault::RepairPulsesListed) => Answer::burnt(0, all),
            Some(Fault::RepairSaysPlace) => Answer::burnt(all, mended),
            Some(Fault::RepairSaysValue) => Answer { value: mended, ..sound },
            Some(Fault::RepairSaysRepaired) if mended > 0 => Answer {
                condition: REPAIRED,
                ..sound
            },
            _ => sound,
        }
    }

    /// The state that a pass leaves: each listed row's page is named, and gains the bit that was burnt in it or none.
    fn tallied(&self, state: &State, listed: &[Listed]) -> State {
        let mut named: Vec<&Listed> = listed.iter().collect();
        match self.fault {
            Some(Fault::RepairMendedNamed) => named.retain(|one| one.is_mended()),
            Some(Fault::RepairPermittedNamed) => named.retain(|one| one.told != Told::NotPermitted),
            _ => {}
        }
        let name = |one: &&Listed| {
            let (old, new) = match self.fault {
                Some(Fault::RepairUncounted) => (one.old, one.old),
                Some(Fault::RepairCountsListed) => (0, 1),
                _ => (one.old, one.left()),
            };
            let (row, whole) = (one.row, new);
            Named { row, old, new, whole }
        };
        kept(self.fault, state, &named.iter().map(name).collect::<Vec<Named>>())
    }

    /// The state that a refusal leaves: the one that came in. A fault names the pages of a list that is refused with 3.
    pub fn refused_pass(&self, rows: &[u32], state: &State, list: &[u32], number: u32) -> State {
        if !self.has(Fault::RepairRefusedNames) || number != 3 {
            return *state;
        }
        let same = |row: &u32| {
            let (row, old) = (*row, rows[*row as usize]);
            let (new, whole) = (old, old);
            Named { row, old, new, whole }
        };
        kept(None, state, &list.iter().map(same).collect::<Vec<Named>>())
    }

    /// The report that a pass leaves: entries past the list as they were.
    fn written(&self, listed: &[Listed], list: &[u32], report: &[u32]) -> Vec<u32> {
        let mut left = report.to_vec();
        for (place, one) in left.iter_mut().zip(listed) {
            *place = self.report_entry(one);
        }
        let past = match self.fault {
            Some(Fault::RepairPastEnded) => 1,
            Some(Fault::RepairPastCleared) => report.len(),
            _ => 0,
        };
        left.iter_mut().skip(list.len()).take(past).for_each(|entry| *entry = 0);
        left
    }

    /// The report that a refusal leaves: as it was.
    pub fn kept_report(&self, rows: &[u32], state: &State, list: &[u32], report: &[u32], number: u32) -> Vec<u32> {
        let falls = |at: &usize| list[*at] >= DATA_END || *at > 0 && list[*at] <= list[at - 1];
        let told = match (self.fault, number) {
            (Some(Fault::Repair12Writes), 12) => self.listed(rows, state, list),
            (Some(Fault::Repair3Writes), 3) => self.before_oversized(rows, state, list),
            (Some(Fault::Repair11Writes), 11) => {
                let end = (0..list.len()).find(falls).unwrap_or(list.len());
                self.listed(rows, state, &list[..end])
            }
            _ => Vec::new(),
        };
        let mut left = report.to_vec();
        for (place, one) in left.iter_mut().zip(&told) {
            *place = self.report_entry(one);
        }
        left
    }
}

/// Burns the missing bit of each row that is mended.
fn burn(rows: &mut [u32], listed: &[Listed]) {
    for one in listed {
        rows[one.row as usize] |= one.left();
    }
}
