//! A repair pass: what is promised of it (request 2026-11), held to the rows, the list, the report, the answers and the tallies alone. It asks
//! neither the library nor the model for its rule.
//!
//! It is refused exactly where the rows, the list or the report say so, and then leaves all of them and the state. Else each entry of the report
//! is what a write of nothing and an ECC read say of the row; only mended rows alter, each by the one bit that its entry names, which it lacked;
//! and each then reads clean, with the value and the polarity of before.

use crate::bench::{Bench, Difference};
use crate::call::Call;
use crate::pass_kinds::{Looked, Passed};
use crate::shape::{
    Answer, State, CLEAN, LARGEST, PAGES, PAGE_BITS, PAGE_ROWS, REPAIRED, ROWS, ROW_CLEAN, ROW_DAMAGED, ROW_MENDED,
    ROW_NOT_PERMITTED, ROW_WORN, SECURE,
};

/// The first row that may not be listed.
const HIGH: u32 = 0xf40;

/// The rows, in the longer buffer that they lie in, how many of them are lent, the list, and the report with what it holds before.
#[derive(Clone)]
pub struct Pass {
    pub rows: Vec<u32>,
    pub lent: usize,
    pub list: Vec<u32>,
    pub report: Vec<u32>,
}

/// What a done pass left.
pub struct Left {
    pub pulses: u32,
    pub rows: Vec<u32>,
    pub report: Vec<u32>,
    pub state: State,
}

/// What the calls say of a listed row before the pass: nothing of it is read where Secure may not write it, or it is oversized.
struct Before {
    permitted: bool,
    read: Option<Answer>,
}

impl Pass {
    /// Makes the pass on its rows with this state, and gives what it left where it is done.
    pub fn run(&self, bench: &mut Bench, state: State) -> Result<Option<Left>, Difference> {
        bench.load(&self.rows);
        bench.state = state;
        let mut it = self.looked_over();
        let before = match it.whole && !it.is_no_list() {
            true => self.before(bench)?,
            false => Vec::new(),
        };
        let large = |permitted: bool| {
            let mut each = self.list.iter().zip(&before);
            each.any(|(row, before)| self.rows[*row as usize] > LARGEST && before.permitted == permitted)
        };
        (it.large, it.large_locked) = (large(true), large(false));
        let mut report = self.report.clone();
        let answer = bench.repair(self.lent, &self.list, &mut report)?;
        it.number = answer.number;
        self.agree(
            it.number == it.due(),
            "it is refused exactly where rows, list or report say so, with the first of their numbers",
        )?;
        if it.number != 0 {
            bench.passes.note(&it);
            return self.is_refused(bench, &answer, &report, &state).map(|()| None);
        }
        self.is_told(bench, &before, &report)?;
        self.is_mended(bench, &before, &report)?;
        let pulses = self.is_counted(bench, &answer, &report)?;
        self.is_tallied(bench, &state, &mut it)?;
        it.mended = pulses as usize;
        it.locked = before.iter().filter(|before| !before.permitted).count();
        bench.passes.note(&it);
        Ok(Some(Left {
            pulses,
            rows: bench.rows().to_vec(),
            report,
            state: bench.state,
        }))
    }

    /// What the list and the report are by themselves.
    fn looked_over(&self) -> Passed {
        let pairs = || self.list.windows(2);
        let large = |row: &u32| self.rows[*row as usize] > LARGEST && !self.list.contains(row);
        Passed {
            whole: self.lent == ROWS,
            listed: self.list.len(),
            high: self.list.iter().any(|row| *row >= HIGH),
            equal: pairs().any(|pair| pair[0] == pair[1]),
            falls: pairs().any(|pair| pair[0] > pair[1]),
            room: self.report.len(),
            large_unlisted: (0..HIGH).any(|row| large(&row)),
            ..Passed::default()
        }
    }

    /// Asks for each listed row whether Secure may write it, and what it reads as. To burn nothing into a row is refused with 7 where Secure may
    /// not; below 0xf40 the rows of a page are written alike, so one of each is asked for.
    fn before(&self, bench: &mut Bench) -> Result<Vec<Before>, Difference> {
        let mut asked = (usize::MAX, false);
        let mut all = Vec::new();
        for row in &self.list {
            let page = *row as usize / PAGE_ROWS;
            if asked.0 != page {
                asked = (page, may_be_written(bench, *row)?);
            }
            let permitted = asked.1;
            let read = match permitted && self.rows[*row as usize] <= LARGEST {
                true => Some(read(bench, *row)?),
                false => None,
            };
            all.push(Before { permitted, read });
        }
        Ok(all)
    }

    /// A refusal is its number alone, and changes nothing.
    fn is_refused(&self, bench: &Bench, answer: &Answer, report: &[u32], state: &State) -> Result<(), Difference> {
        self.agree(
            *answer == Answer::refused(answer.number),
            "a refusal is its number alone",
        )?;
        self.agree(bench.rows() == self.rows, "a refusal leaves all rows")?;
        self.agree(report == self.report, "a refusal leaves the report")?;
        self.agree(bench.state == *state, "a refusal leaves the state")
    }

    /// The report entry that is due to a row by what the calls said of it.
    fn due(&self, row: u32, before: &Before) -> u32 {
        let Some(read) = before.read.filter(|_| before.permitted) else {
            return ROW_NOT_PERMITTED;
        };
        let lacks = self.rows[row as usize] >> read.bit & 1 == 0;
        match (read.number, read.condition) {
            (0, CLEAN) => ROW_CLEAN,
            (0, REPAIRED) if lacks => ROW_MENDED + 256 * read.bit,
            (0, _) => ROW_WORN,
            _ => ROW_DAMAGED,
        }
    }

    /// Each entry of the report is the one that is due, and those past the list are as they were.
    fn is_told(&self, bench: &mut Bench, before: &[Before], report: &[u32]) -> Result<(), Difference> {
        let (told, past) = report.split_at(self.list.len());
        for ((row, before), told) in self.list.iter().zip(before).zip(told) {
            let entry = self.rows[*row as usize];
            let due = self.due(*row, before);
            self.agree(
                *told == due,
                &format!("the report has {due:#x} for row {row:#05x}, which held {entry:#08x}, and not {told:#x}"),
            )?;
            bench.looked.note(&Looked { entry, told: *told });
        }
        let kept = past == &self.report[self.list.len()..];
        self.agree(kept, "report entries past the list are as they were")
    }

    /// Only mended rows alter, each by the one bit of its entry, and each then reads clean and else as before.
    fn is_mended(&self, bench: &mut Bench, before: &[Before], report: &[u32]) -> Result<(), Difference> {
        let mut rows = self.rows.clone();
        for (row, told) in self.list.iter().zip(report).filter(|(_, told)| is_mended(**told)) {
            let bit = 1 << (told / 256);
            self.agree(rows[*row as usize] & bit == 0, "a mended row lacked its bit")?;
            rows[*row as usize] |= bit;
        }
        self.agree(
            bench.rows() == rows,
            "only mended rows alter, each by the bit of its entry",
        )?;
        for ((row, told), before) in self.list.iter().zip(report).zip(before) {
            let Some(read_before) = before.read.filter(|_| is_mended(*told)) else {
                continue;
            };
            let clean = Answer {
                condition: CLEAN,
                bit: 0,
                ..read_before
            };
            self.agree(
                read(bench, *row)? == clean,
                "a mended row reads clean, with the same value and polarity as before",
            )?;
        }
        Ok(())
    }

    /// The pulses are the rows mended and the bits newly set, and nothing else is answered.
    fn is_counted(&self, bench: &Bench, answer: &Answer, report: &[u32]) -> Result<u32, Difference> {
        let mended = report[..self.list.len()]
            .iter()
            .filter(|told| is_mended(**told))
            .count() as u32;
        let bits: u32 = bits(&self.rows, bench.rows()).iter().sum();
        self.agree(
            *answer == Answer::burnt(0, bits) && bits == mended,
            "the pulses are the bits newly set, one for each mended row, and nothing else is answered",
        )?;
        Ok(mended)
    }

    /// Each listed row's page has the lesser of 1,536 and its tally with the bits newly set in it, and nothing else of the state changes.
    fn is_tallied(&self, bench: &Bench, state: &State, it: &mut Passed) -> Result<(), Difference> {
        let mut due = *state;
        let new = bits(&self.rows, bench.rows());
        for (page, (tally, new)) in due.tallies.iter_mut().zip(new).enumerate() {
            if self.list.iter().any(|row| *row as usize / PAGE_ROWS == page) {
                let old = u32::from(*tally);
                *tally = (old + new).min(PAGE_BITS) as u16;
                it.held |= old <= PAGE_BITS && old + new > PAGE_BITS;
                it.lowered |= old > PAGE_BITS;
            }
        }
        self.agree(
            bench.state == due,
            "each listed row's page is counted up to 1,536, and nothing else of the state changes",
        )
    }

    pub fn agree(&self, holds: bool, what: &str) -> Result<(), Difference> {
        if holds {
            return Ok(());
        }
        let Pass { list, report, .. } = self.clone();
        let call = Call::Repair { report, list };
        let lent = self.lent;
        Err(Difference(format!(
            "a repair pass fails: {call} ({lent} rows): this does not hold: {what}"
        )))
    }
}

/// Whether a report entry says mended.
pub fn is_mended(told: u32) -> bool {
    told % 256 == ROW_MENDED
}

/// The bits newly set in each page.
fn bits(before: &[u32], after: &[u32]) -> [u32; PAGES] {
    let mut bits = [0; PAGES];
    for (row, (old, new)) in before.iter().zip(after).take(ROWS).enumerate() {
        bits[row / PAGE_ROWS] += (new & !old).count_ones();
    }
    bits
}

/// Whether Secure may write a row.
fn may_be_written(bench: &mut Bench, row: u32) -> Result<bool, Difference> {
    let (state, caller) = (bench.state, SECURE);
    let answer = bench.call(&Call::WriteRaw { caller, row, value: 0 })?;
    bench.state = state;
    Ok(answer.number != 7)
}

/// Reads a row with ECC as Secure.
fn read(bench: &mut Bench, row: u32) -> Result<Answer, Difference> {
    bench.call(&Call::ReadEcc { caller: SECURE, row })
}
