//! Jobs that were made of two images, run on the present one, cut and read: what is promised of them (request 2026-04), held to the images, the
//! answers and the rows alone. It asks neither the library nor the model for its rule.
//!
//! Such a job is refused with 7, exactly if Secure may not write a row that differs, or it leaves the wanted image, for as many pulses as bits
//! differ. Cut at any pulse, after a reset it goes on to the wanted image too, and the pulses add up.

use crate::bench::{Bench, Difference};
use crate::call::Call;
use crate::made::Pair;
use crate::pair_kinds::Run;
use crate::shape::{Answer, State, ROWS, SECURE};
use crate::walked::{walk, Walk};

/// A job that was made of two images, to be run on the present one.
pub struct Job<'a> {
    pub pair: &'a Pair,
    pub bytes: Vec<u8>,
}

impl Job<'_> {
    /// Whether Secure may write a row of the present image: to burn nothing into it is refused with 7 where it may not.
    fn may_be_written(&self, bench: &mut Bench, row: usize) -> Result<bool, Difference> {
        let state = bench.state;
        let (caller, row) = (SECURE, row as u32);
        let answer = bench.call(&Call::WriteRaw { caller, row, value: 0 })?;
        bench.state = state;
        Ok(answer.number != 7)
    }

    /// The first entry whose row Secure may not write. Below 0xf40 the rows of a page are written alike, so one row of each is asked for.
    fn first_locked(&self, bench: &mut Bench) -> Result<Option<usize>, Difference> {
        let mut page = usize::MAX;
        for (place, row) in self.pair.apart().into_iter().enumerate() {
            let another = page != row / 64;
            page = row / 64;
            if another && !self.may_be_written(bench, row)? {
                return Ok(Some(place));
            }
        }
        Ok(None)
    }

    /// Runs the job, or with a limit rehearses it, from where the chip stands.
    fn call(&self, bench: &mut Bench, limit: Option<u32>) -> Result<Answer, Difference> {
        let job = self.bytes.clone();
        bench.call(&match limit {
            Some(limit) => Call::Rehearse { limit, job },
            None => Call::RunJob { job },
        })
    }

    /// Runs the job on the present image with this state.
    pub fn run(&self, bench: &mut Bench, state: State) -> Result<(), Difference> {
        bench.load(&self.pair.present);
        bench.state = state;
        let locked = self.first_locked(bench)?;
        let answer = self.call(bench, None)?;
        self.note(bench, &answer, None);
        match locked {
            Some(place) => self.is_refused(bench, &answer, place),
            None => self.arrives(bench, &answer, self.pair.looked_at(0).bits),
        }
    }

    /// Refused with 7 at a place, and no row has changed.
    fn is_refused(&self, bench: &Bench, answer: &Answer, place: usize) -> Result<(), Difference> {
        let refused = Answer {
            place: place as u32,
            ..Answer::refused(7)
        };
        self.agree(*answer == refused, "it is 7 at the first row that Secure may not write")?;
        self.agree(bench.rows() == self.pair.present, "a refusal changes no row")
    }

    /// Done with so many pulses, and the rows are the wanted ones.
    fn arrives(&self, bench: &Bench, answer: &Answer, pulses: u32) -> Result<(), Difference> {
        let entries = self.pair.apart().len() as u32;
        self.agree(
            answer.number == 0,
            "it is done where Secure may write every row that differs",
        )?;
        self.agree(
            bench.rows()[..ROWS] == *self.pair.wanted(),
            "the rows are the wanted ones",
        )?;
        self.agree(
            *answer == Answer::burnt(entries, pulses),
            "the pulses are the bits that differ",
        )
    }

    /// Rehearses the job on the present image just reset, with this key, to a limit; then resets, enters the key again and runs it. Where Secure
    /// may not write a row, both are refused.
    pub fn cut(&self, bench: &mut Bench, key: &[u8], limit: u32) -> Result<(), Difference> {
        let bits = self.pair.looked_at(0).bits;
        bench.load(&self.pair.present);
        begin(bench, key)?;
        let locked = self.first_locked(bench)?;
        let part = self.call(bench, Some(limit))?;
        if let Some(place) = locked {
            self.is_refused(bench, &part, place)?;
        }
        begin(bench, key)?;
        let answer = self.call(bench, None)?;
        self.note(bench, &answer, Some(part.pulses));
        if let Some(place) = locked {
            return self.is_refused(bench, &answer, place);
        }
        let to_limit = part.number == 0 && part.pulses == limit.min(bits);
        self.agree(to_limit, "a rehearsal goes to its limit")?;
        self.arrives(bench, &answer, bits - part.pulses)
    }

    /// Reads the job from byte 7 on: its entries are those of the rows that differ, and then comes the end.
    pub fn read(&self, bench: &mut Bench) -> Result<(), Difference> {
        let Walk { entries, last } = walk(bench, &self.bytes, 7)?;
        let wanted = self.pair.wanted();
        let expected: Vec<[u32; 3]> = self
            .pair
            .apart()
            .iter()
            .map(|row| [*row as u32, 1, wanted[*row]])
            .collect();
        self.agree(
            entries == expected && last.end == 1,
            "the reader hands over its entries, and then the end",
        )
    }

    fn note(&self, bench: &mut Bench, answer: &Answer, cut: Option<u32>) {
        let entries = self.pair.apart().len();
        let Answer {
            number, place, pulses, ..
        } = *answer;
        bench.runs.note(&Run {
            entries,
            number,
            place,
            pulses,
            cut,
        });
    }

    fn agree(&self, holds: bool, what: &str) -> Result<(), Difference> {
        self.pair.agree(holds, what)
    }
}

/// Reset, then the key.
fn begin(bench: &mut Bench, key: &[u8]) -> Result<(), Difference> {
    bench.call(&Call::Reset {})?;
    let key = key.to_vec();
    bench.call(&Call::EnterKey { caller: SECURE, key }).map(|_| ())
}
