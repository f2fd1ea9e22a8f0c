//! The model behind the trait that the library is seen through: each call done, or refused and nothing changed.

use crate::call::{Call, Chip};
use crate::fault::Fault;
use crate::model::Model;
use crate::shape::{Answer, Beside, Card, Outcome, State};
use crate::tallies::{kept, Named};

/// Done, with a new state.
fn changed(state: State) -> Outcome {
    Outcome::new(Answer::default(), state)
}

/// The card that a call asks for: none, where it asks for none.
fn asked(call: &Call) -> Card {
    match *call {
        Call::WriteCard {
            version,
            width,
            height,
            line,
            ..
        } => Card {
            number: 0,
            version,
            width,
            height,
            line,
        },
        _ => Card::default(),
    }
}

impl Chip for Model {
    fn make(&self, call: &Call, rows: &mut [u32], state: State) -> Outcome {
        let kept = |answer| Outcome::new(answer, state);
        let value = |value| kept(Answer::value(value));
        let done = match *call {
            Call::Reset {} => self.latched(rows, &state).map(changed),
            Call::ReadRaw { caller, row } => self.raw_read(rows, &state, caller, row).map(kept),
            Call::ReadEcc { caller, row } => self.ecc_read(rows, &state, caller, row).map(kept),
            Call::ReadVote { caller, row, count } => self.vote(rows, &state, caller, row, count).map(value),
            Call::WriteRaw { caller, row, value } => self
                .raw_write(rows, &state, caller, row, value)
                .map(|new| self.write(rows, &state, row, new)),
            Call::WriteEcc { caller, row, value } => self
                .ecc_write(rows, &state, caller, row, value)
                .map(|new| self.write(rows, &state, row, new)),
            Call::Advance {
                caller,
                domain,
                page,
                level,
            } => self.advanced(&state, caller, domain, page, level).map(changed),
            Call::Show { caller, domain, page } => self.shown(&state, caller, domain, page).map(value),
            Call::EnterKey { caller, ref key } => self.entered(&state, caller, key).map(changed),
            Call::RunJob { ref job } => self.job(rows, &state, job, None),
            Call::Rehearse { limit, ref job } => self.job(rows, &state, job, Some(limit)),
            Call::TakeChunk { ref lead, ref chunk } => self.taken(lead, chunk).map(|(answer, left)| Outcome {
                beside: Beside::Lead(left),
                ..kept(answer)
            }),
            Call::EndJob { ref lead } => self.ended(rows, &state, lead),
            Call::MakeJob { ref wanted, ref out } => self.make_job(rows, wanted, out, kept),
            Call::NextEntry { at, ref job } => Ok(self.next_entry(at, job, kept)),
            Call::Repair { ref report, ref list } => self.repaired(rows, &state, list, report),
            Call::ReadCard {} => self.card(rows, &state).map(|card| Outcome {
                beside: Beside::Card(card),
                ..kept(Answer::default())
            }),
            Call::WriteCard { ref area, .. } => {
                let written = self.card_written(&asked(call), area);
                written.map(|(answer, left)| Outcome {
                    beside: Beside::Output(left),
                    ..kept(answer)
                })
            }
        };
        done.unwrap_or_else(|number| Outcome {
            answer: self.refusal(call, rows, number),
            beside: self.refused_beside(call, rows, &state, number),
            state: self.refused_state(call, rows, state, number),
        })
    }
}

impl Model {
    /// A job made of the rows and a wanted image, or of the rows twice.
    fn make_job(
        &self,
        rows: &[u32],
        wanted: &Option<Vec<u32>>,
        out: &[u8],
        kept: impl Fn(Answer) -> Outcome,
    ) -> Result<Outcome, u32> {
        let (answer, left) = self.made(rows, wanted.as_deref().unwrap_or(rows), out)?;
        Ok(Outcome {
            beside: Beside::Output(left),
            ..kept(answer)
        })
    }

    /// What the reader hands over. Its answer is the number alone.
    fn next_entry(&self, at: u64, job: &[u8], kept: impl Fn(Answer) -> Outcome) -> Outcome {
        let handed = self.handed(job, at);
        Outcome {
            beside: Beside::Handed(handed),
            ..kept(Answer::refused(handed.number))
        }
    }

    /// The state that a refusal leaves: the one that came in. Faults let a refused raw write name its row's page, and a refused pass its list's.
    fn refused_state(&self, call: &Call, rows: &[u32], state: State, number: u32) -> State {
        let counts = self.has(Fault::RefusedCounts);
        match *call {
            Call::WriteRaw { row, value, .. } if counts || self.has(Fault::RefusedLowers) => {
                let Some(old) = rows.get(row as usize).copied() else {
                    return state;
                };
                let new = if counts { old | value } else { old };
                let whole = new;
                kept(self.fault, &state, &[Named { row, old, new, whole }])
            }
            Call::Repair { ref list, .. } => self.refused_pass(rows, &state, list, number),
            _ => state,
        }
    }

    /// What a refusal answers: its number, and nothing else. Faults let a job without room say how much it needs.
    fn refusal(&self, call: &Call, rows: &[u32], number: u32) -> Answer {
        match call {
            Call::MakeJob { wanted, .. } if self.has(Fault::MakeSaysRoom) && number == 12 => Answer {
                value: self.job_of(rows, wanted.as_deref().unwrap_or(rows)).len() as u32,
                ..Answer::refused(number)
            },
            Call::WriteCard { .. } => self.refused_card_job(&asked(call), number),
            _ => Answer::refused(number),
        }
    }

    /// The note and the area that a refused chunk leaves, the output that a job leaves which is not made, a refused pass's report, no card, and the
    /// area of a card that is not written.
    fn refused_beside(&self, call: &Call, rows: &[u32], state: &State, number: u32) -> Beside {
        match call {
            Call::TakeChunk { lead, chunk } => Beside::Lead(self.kept_lead(lead, chunk)),
            Call::MakeJob { wanted, out } => {
                let job = self.job_of(rows, wanted.as_deref().unwrap_or(rows));
                Beside::Output(self.kept_output(&job, out, number))
            }
            Call::Repair { report, list } => Beside::Report(self.kept_report(rows, state, list, report, number)),
            Call::ReadCard {} => Beside::Card(self.refused_card(rows, state, number)),
            Call::WriteCard { area, .. } => Beside::Output(self.kept_area(&asked(call), area, number)),
            _ => Beside::Nothing,
        }
    }
}
