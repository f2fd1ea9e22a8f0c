//! A repair pass made again, and one that is cut: what is promised of them (request 2026-11), held to the rows, the reports and the answers alone.
//! It asks neither the library nor the model for its rule.
//!
//! A second pass with the same list mends nothing and changes nothing, right after the first, and after a reset and the same key where the
//! first was made on a chip just reset with that key. A pass that is cut after any pulse is a pass over the first rows of its list. After a
//! reset and the same key the whole pass goes on to the rows of the uncut one, and the pulses add up.

use crate::bench::{Bench, Difference};
use crate::call::Call;
use crate::pass_kinds::Again;
use crate::passed::{is_mended, Left, Pass};
use crate::shape::{Answer, State, ROWS, ROW_CLEAN, SECURE};

/// What a second pass tells of the rows that a first one told of: what was mended is clean, and of all others the same.
fn told_again(report: &[u32], count: usize) -> Vec<u32> {
    let mut again = report.to_vec();
    for told in again.iter_mut().take(count).filter(|told| is_mended(**told)) {
        *told = ROW_CLEAN;
    }
    again
}

/// What a report holds before a pass that is made again: other entries than any pass writes.
fn filled(length: usize) -> Vec<u32> {
    (0..length as u32).map(|place| 0xa5a5_0000 ^ place).collect()
}

impl Pass {
    /// Makes the pass, and where it is done makes it again at once.
    pub fn twice(&self, bench: &mut Bench, state: State) -> Result<Option<Left>, Difference> {
        let left = self.run(bench, state)?;
        if let Some(left) = &left {
            self.again(bench, left, Again::at_once(left.pulses))?;
        }
        Ok(left)
    }

    /// Makes a done pass again: it mends nothing, and leaves the rows and the state.
    fn again(&self, bench: &mut Bench, left: &Left, it: Again) -> Result<(), Difference> {
        let mut report = filled(self.report.len());
        report[self.list.len()..].copy_from_slice(&left.report[self.list.len()..]);
        let answer = bench.repair(ROWS, &self.list, &mut report)?;
        bench.again.note(&it);
        self.agree(answer == Answer::burnt(0, 0), "a second pass is done and mends nothing")?;
        self.agree(bench.rows() == left.rows, "a second pass changes no row")?;
        self.agree(
            report == told_again(&left.report, self.list.len()),
            "a second pass tells of a mended row that it is clean, and of every other row the same",
        )?;
        let same = bench.state.tallies == left.state.tallies;
        self.agree(same, "a second pass leaves the tallies")
    }

    /// Makes the pass on its rows just reset with this key, and again at once and after a reset and the key; then cut after so many of its
    /// listed rows, and again whole. Rows that no reset takes are left alone, and so is a pass that is refused.
    pub fn cut(&self, bench: &mut Bench, key: &[u8], cuts: &[usize]) -> Result<(), Difference> {
        bench.load(&self.rows);
        if begin(bench, key)? != 0 {
            return Ok(());
        }
        let state = bench.state;
        let keyed = state.entered != [0; 8];
        let Some(left) = self.twice(bench, state)? else {
            return Ok(());
        };
        begin(bench, key)?;
        let (reset, cut) = (true, false);
        let (before, after) = (left.pulses, 0);
        let it = Again {
            before,
            after,
            reset,
            keyed,
            cut,
        };
        self.again(bench, &left, it)?;
        cuts.iter()
            .try_for_each(|count| self.cut_after(bench, key, (*count).min(self.list.len()), &left))
    }

    /// Cut after so many of its listed rows.
    fn cut_after(&self, bench: &mut Bench, key: &[u8], count: usize, uncut: &Left) -> Result<(), Difference> {
        bench.load(&self.rows);
        begin(bench, key)?;
        let mut first = filled(count);
        let part = bench.repair(ROWS, &self.list[..count], &mut first)?;
        self.agree(
            part.number == 0 && first == uncut.report[..count],
            "a pass over the first rows of a list tells the same of them",
        )?;
        begin(bench, key)?;
        let mut report = self.report.clone();
        let rest = bench.repair(ROWS, &self.list, &mut report)?;
        bench.again.note(&Again {
            before: part.pulses,
            after: rest.pulses,
            reset: true,
            keyed: bench.state.entered != [0; 8],
            cut: true,
        });
        let whole = rest == Answer::burnt(0, uncut.pulses.wrapping_sub(part.pulses));
        self.agree(whole, "the pulses of a cut pass and of the one after it add up")?;
        self.agree(
            bench.rows() == uncut.rows,
            "after a cut the rows are those of the uncut pass",
        )?;
        self.agree(
            report == told_again(&uncut.report, count),
            "after a cut a row that was mended before it is clean, and of every other row the same is told",
        )
    }
}

impl Again {
    /// Without a reset.
    fn at_once(before: u32) -> Again {
        Again {
            before,
            after: 0,
            reset: false,
            keyed: false,
            cut: false,
        }
    }
}

/// Reset, then the key. Gives the number of the reset.
fn begin(bench: &mut Bench, key: &[u8]) -> Result<u32, Difference> {
    let number = bench.call(&Call::Reset {})?.number;
    let key = key.to_vec();
    bench.call(&Call::EnterKey { caller: SECURE, key })?;
    Ok(number)
}
