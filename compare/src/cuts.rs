//! A job on a chip just reset, cut any number of times, with a reset and the same key after each cut: what is promised of it, held to the
//! rows and the answers alone. It asks neither the library nor the model for its rule.
//!
//! As long as no lock row has changed since the first run began, the job is accepted again, and goes on where it was cut (demand 3). Once
//! one has, every data row is finished and stays so, and the job is refused with 7 or goes on (request 2026-09).

use crate::bench::{Bench, Difference};
use crate::call::Call;
use crate::ends::{locks, Again};
use crate::form::DATA_END;
use crate::recount::tallies_are_right;
use crate::shape::{Answer, State, LOCK_ROWS, PAGES};

/// A chip, the state before its first reset, the key that is entered after each, and the job.
pub struct Setting {
    pub rows: Vec<u32>,
    pub before: State,
    pub key: Vec<u8>,
    pub job: Vec<u8>,
}

impl Setting {
    /// The chip as it was.
    fn lay_out(&self, bench: &mut Bench) -> Result<(), Difference> {
        bench.state = self.before;
        bench.load(&self.rows);
        self.begin(bench)
    }

    /// Reset, then the key.
    pub fn begin(&self, bench: &mut Bench) -> Result<(), Difference> {
        counted(bench, &Call::Reset {})?;
        let key = self.key.clone();
        counted(bench, &Call::EnterKey { caller: 0, key }).map(|_| ())
    }

    /// Runs the job, or with a limit rehearses it.
    fn run(&self, bench: &mut Bench, limit: Option<u32>) -> Result<Answer, Difference> {
        let job = self.job.clone();
        let call = match limit {
            Some(limit) => Call::Rehearse { limit, job },
            None => Call::RunJob { job },
        };
        counted(bench, &call)
    }

    /// The row of an entry.
    fn row(&self, place: u32) -> Option<u32> {
        let part = self.job.get(7 + 6 * place as usize..)?;
        Some(u32::from(*part.first()?) + 256 * u32::from(*part.get(1)?))
    }

    fn agree(&self, holds: bool, what: &str) -> Result<(), Difference> {
        if holds {
            return Ok(());
        }
        let call = Call::RunJob { job: self.job.clone() };
        Err(Difference(format!(
            "a cut sequence fails: {call}: this does not hold: {what}"
        )))
    }
}

/// Makes a call. No row changed since the reset but by calls, so the tallies are right after it.
fn counted(bench: &mut Bench, call: &Call) -> Result<Answer, Difference> {
    let answer = bench.call(call)?;
    tallies_are_right(bench, &call.to_string())?;
    Ok(answer)
}

/// The data rows, and the rows between them and the lock rows.
fn data(rows: &[u32]) -> &[u32] {
    &rows[..DATA_END as usize]
}

fn between(rows: &[u32]) -> &[u32] {
    &rows[DATA_END as usize..LOCK_ROWS as usize]
}

/// A setting under trial: what the uncut job left, and how many of its pulses are still to be given.
pub struct Trial<'a> {
    setting: &'a Setting,
    answer: Answer,
    rows: Vec<u32>,
    tallies: [u16; PAGES],
    pub left: u32,
    cut: bool,
}

impl<'a> Trial<'a> {
    /// Runs the job uncut, and lays the chip out again.
    pub fn new(bench: &mut Bench, setting: &'a Setting) -> Result<Trial<'a>, Difference> {
        setting.lay_out(bench)?;
        let answer = setting.run(bench, None)?;
        let (rows, tallies) = (bench.rows().to_vec(), bench.state.tallies);
        let spent: u32 = rows
            .iter()
            .zip(&setting.rows)
            .map(|(new, old)| (new ^ old).count_ones())
            .sum();
        setting.agree(
            answer.pulses == spent,
            "the pulses of the uncut job are the bits newly set",
        )?;
        setting.lay_out(bench)?;
        Ok(Trial {
            setting,
            answer,
            rows,
            tallies,
            left: answer.pulses,
            cut: false,
        })
    }

    /// How many pulses are still to be given to lock rows.
    pub fn left_to_locks(&self, bench: &Bench) -> u32 {
        let pairs = locks(bench.rows()).iter().zip(locks(&self.rows));
        pairs.map(|(now, end)| (end & !now).count_ones()).sum()
    }

    /// Runs the job, or rehearses it to a limit, from where the chip stands, and holds it to what is promised.
    pub fn part(&mut self, bench: &mut Bench, limit: Option<u32>) -> Result<(), Difference> {
        let found = bench.rows().to_vec();
        let answer = self.setting.run(bench, limit)?;
        if self.answer.number != 0 {
            self.agree(
                answer == self.answer && bench.rows() == found,
                "it is refused as the uncut job is",
            )?;
            return Ok(());
        }
        let again = Again {
            first: &self.setting.rows,
            uncut: &self.rows,
            found: &found,
            keyed: bench.state.entered != [0; 8],
            answer,
            row: self.setting.row(answer.place),
        };
        if self.cut {
            bench.ends.note(&again);
        }
        self.cut = true;
        self.judge(bench, &again, limit)?;
        self.left -= answer.pulses;
        Ok(())
    }

    /// What is promised of a job that was done the first time.
    fn judge(&self, bench: &Bench, again: &Again, limit: Option<u32>) -> Result<(), Difference> {
        let rows = bench.rows();
        if again.locked() {
            self.agree(
                data(again.found) == data(&self.rows),
                "after a lock pulse every data row is finished",
            )?;
            self.agree(
                data(rows) == data(again.found),
                "after a lock pulse no data row changes",
            )?;
            if again.answer.number == 7 {
                self.agree(
                    rows == again.found && again.answer.pulses == 0,
                    "a refusal changes nothing",
                )?;
                return Ok(());
            }
        }
        self.agree(
            again.answer.number == 0,
            "the job is accepted again, or after a lock pulse refused with 7",
        )?;
        self.goes_on(bench, again.answer, limit)
    }

    /// Where it is done it goes on, to its limit or to the uncut job's end.
    fn goes_on(&self, bench: &Bench, answer: Answer, limit: Option<u32>) -> Result<(), Difference> {
        let rows = bench.rows();
        let limit = limit.unwrap_or(u32::MAX);
        self.agree(answer.pulses == limit.min(self.left), "the pulses of the parts add up")?;
        self.agree(self.part_way(rows, answer.place), "a cut stops inside one entry's row")?;
        self.agree(
            between(rows) == between(&self.setting.rows),
            "no job burns a row from 0xf40 to 0xf7f",
        )?;
        if locks(rows) != locks(&self.setting.rows) {
            self.agree(
                data(rows) == data(&self.rows),
                "a cut after a lock pulse leaves every data row finished",
            )?;
        }
        if limit < self.left {
            return Ok(());
        }
        for (holds, what) in [
            (answer.place == self.answer.place, "place"),
            (rows == self.rows, "rows"),
            (bench.state.tallies == self.tallies, "tallies"),
        ] {
            self.agree(holds, &format!("the full job after cuts gives the uncut job's {what}"))?;
        }
        Ok(())
    }

    /// Entries before the place are finished, the entry there lies between old and finished, later ones are old.
    fn part_way(&self, rows: &[u32], place: u32) -> bool {
        let job = &self.setting.job;
        job[7..].chunks(6).enumerate().all(|(i, part)| {
            let row = usize::from(part[0]) + 256 * usize::from(part[1]);
            let (now, old, end) = (rows[row], self.setting.rows[row], self.rows[row]);
            match i.cmp(&(place as usize)) {
                std::cmp::Ordering::Less => now == end,
                std::cmp::Ordering::Equal => now != end && now & old == old && now & end == now,
                std::cmp::Ordering::Greater => now == old,
            }
        })
    }

    fn agree(&self, holds: bool, what: &str) -> Result<(), Difference> {
        self.setting.agree(holds, what)
    }
}
