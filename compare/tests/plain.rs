//! The timed rules against the model, on the comparison's own mix of calls, on every cutting of a job, on every pair of images, on every place
//! in a job, on every worn row and on every card: else a time would say nothing.

use compare::bench::Bench;
use compare::call::{Call, Chip};
use compare::every_card::every_card;
use compare::every_card_job::every_card_job;
use compare::every_cutting::every_cutting;
use compare::every_ground::every_ground;
use compare::every_list::every_list;
use compare::every_note::every_note;
use compare::every_page::every_page;
use compare::every_pair::every_pair;
use compare::every_place::every_place;
use compare::every_worn_row::every_worn_row;
use compare::model::Model;
use compare::plain::{access, card, chip, jobs, lead as plain, make, reader, repair};
use compare::run::run;
use compare::shape::{Answer, Beside, Card, Lead, Outcome, State};

/// The timed rules as what makes calls.
struct Plain;

impl Chip for Plain {
    fn make(&self, call: &Call, rows: &mut [u32], mut state: State) -> Outcome {
        let mut beside = Beside::Nothing;
        let answer = match *call {
            Call::Reset {} => chip::reset(rows, &mut state),
            Call::ReadRaw { caller, row } => access::read_raw(rows, &state, caller, row),
            Call::ReadEcc { caller, row } => access::read_ecc(rows, &state, caller, row),
            Call::ReadVote { caller, row, count } => access::read_vote(rows, &state, caller, row, count),
            Call::WriteRaw { caller, row, value } => access::write_raw(rows, &mut state, caller, row, value),
            Call::WriteEcc { caller, row, value } => access::write_ecc(rows, &mut state, caller, row, value),
            Call::Advance {
                caller,
                domain,
                page,
                level,
            } => chip::advance(&mut state, caller, domain, page, level),
            Call::Show { caller, domain, page } => chip::show(&state, caller, domain, page),
            Call::EnterKey { caller, ref key } => chip::enter_key(&mut state, caller, key),
            Call::RunJob { ref job } => jobs::run_job(rows, &mut state, job),
            Call::Rehearse { limit, ref job } => jobs::rehearse(rows, &mut state, job, limit),
            Call::TakeChunk { ref lead, ref chunk } => {
                let Lead { mut note, mut area } = lead.clone();
                let answer = plain::take_chunk(&mut area, &mut note, chunk);
                beside = Beside::Lead(Lead { note, area });
                answer
            }
            Call::EndJob { ref lead } => plain::end_job(rows, &mut state, &lead.area, &lead.note),
            Call::MakeJob { ref wanted, ref out } => {
                let mut out = out.clone();
                let answer = make::make_job(rows, wanted.as_deref().unwrap_or(rows), &mut out);
                beside = Beside::Output(out);
                answer
            }
            Call::NextEntry { at, ref job } => {
                let handed = reader::next_entry(job, at);
                beside = Beside::Handed(handed);
                Answer::refused(handed.number)
            }
            Call::Repair { ref report, ref list } => {
                let mut report = report.clone();
                let answer = repair::repair(rows, &mut state, list, &mut report);
                beside = Beside::Report(report);
                answer
            }
            Call::ReadCard {} => {
                let card = card::read_card(rows, &state);
                beside = Beside::Card(card);
                Answer::refused(card.number)
            }
            Call::WriteCard {
                version,
                width,
                height,
                line,
                ref area,
            } => {
                let (mut area, number) = (area.clone(), 0);
                let asked = Card {
                    number,
                    version,
                    width,
                    height,
                    line,
                };
                let answer = card::write_card(&mut area, &asked);
                beside = Beside::Output(area);
                answer
            }
        };
        Outcome { answer, state, beside }
    }
}

#[test]
fn the_plain_rules_answer_as_the_model_does() {
    let model = Model::sound();
    let mut bench = Bench::new(&Plain, &model);
    run(&mut bench, &model.codes, &model, 200_000, 3).expect("no call differs");
    every_cutting(&mut bench).expect("no call differs");
    every_note(&mut bench).expect("no call differs");
    every_ground(&mut bench).expect("no call differs");
    every_pair(&mut bench).expect("no call differs");
    every_place(&mut bench).expect("no call differs");
    every_list(&mut bench).expect("no call differs");
    every_page(&mut bench).expect("no call differs");
    every_worn_row(&mut bench).expect("no call differs");
    every_card(&mut bench).expect("no call differs");
    every_card_job(&mut bench).expect("no call differs");
}
