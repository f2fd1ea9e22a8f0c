//! The slips that request 2026-11 invites: each is found among the lists and the worn rows of every kind, and by what is promised of a repair pass:
//! by the rows, the report, the answers and the tallies, without a model to compare with.

use compare::bench::{Bench, Difference};
use compare::every_list::every_list;
use compare::every_page::every_page;
use compare::every_worn_row::every_worn_row;
use compare::fault::{Fault, FAULTS};
use compare::model::Model;
use compare::random::Random;
use compare::repairs::repair;

fn slips() -> Vec<Fault> {
    let list = FAULTS.iter().filter(|(_, name, _)| name.starts_with("repair-"));
    list.map(|(fault, ..)| *fault).collect()
}

/// All lists and all worn rows.
fn all(model: &Model) -> Result<(), Difference> {
    let library = Model::sound();
    let mut bench = Bench::new(&library, model);
    every_list(&mut bench)?;
    every_page(&mut bench)?;
    every_worn_row(&mut bench)
}

#[test]
fn each_slip_is_found_among_all_lists_and_worn_rows() {
    assert!(all(&Model::sound()).is_ok());
    assert_eq!(slips().len(), 62);
    for slip in slips() {
        assert!(all(&Model::faulty(slip)).is_err(), "{slip:?}");
    }
}

/// Random passes, where both sides slip alike, so that no call differs.
fn promised(slip: Fault) -> Result<(), Difference> {
    let (sound, both) = (Model::sound(), Model::faulty(slip));
    let mut bench = Bench::new(&both, &both);
    let mut random = Random::new(1);
    (0..3000).try_for_each(|_| repair(&mut random, &mut bench, &sound.codes))
}

#[test]
fn the_promise_finds_each_slip_too() {
    for slip in slips() {
        let Difference(line) = promised(slip).expect_err(&format!("{slip:?}"));
        assert!(line.starts_with("a repair pass fails: "), "{slip:?}: {line}");
    }
}

/// Slips of reading and of counting, by which a pass and the other calls would not fit together.
#[test]
fn what_is_repaired_and_what_is_read_and_counted_are_held_to_each_other() {
    for slip in [Fault::NoLimit, Fault::NamedAbove, Fault::WornClean, Fault::WornRepaired] {
        assert!(promised(slip).is_err(), "{slip:?}");
    }
}
