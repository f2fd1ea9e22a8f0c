//! The slips that request 2026-04 invites: each is found among the pairs and places of every kind, and by what is promised of a job made of two
//! images, or read by its entries: by the images, the bytes, the answers and the rows, without a model to compare with.

use compare::bench::{Bench, Difference};
use compare::every_ground::every_ground;
use compare::every_pair::every_pair;
use compare::every_place::every_place;
use compare::fault::{Fault, FAULTS};
use compare::makings::make;
use compare::model::Model;
use compare::random::Random;
use compare::readings::read;

/// The slips of a call, whose names begin alike.
fn slips(first: &str) -> Vec<Fault> {
    let list = FAULTS.iter().filter(|(_, name, _)| name.starts_with(first));
    list.map(|(fault, ..)| *fault).collect()
}

/// All pairs, or all places.
fn all(model: &Model, first: &str) -> Result<(), Difference> {
    let library = Model::sound();
    let mut bench = Bench::new(&library, model);
    match first {
        "make-" => every_ground(&mut bench).and_then(|()| every_pair(&mut bench)),
        _ => every_place(&mut bench),
    }
}

#[test]
fn each_slip_is_found_among_all_pairs_and_places() {
    for (first, count) in [("make-", 39), ("next-", 25)] {
        assert!(all(&Model::sound(), first).is_ok());
        assert_eq!(slips(first).len(), count);
        for slip in slips(first) {
            assert!(all(&Model::faulty(slip), first).is_err(), "{slip:?}");
        }
    }
}

/// Random pairs and places, where both sides slip alike, so that no call differs.
fn promised(slip: Fault) -> Result<(), Difference> {
    let (sound, both) = (Model::sound(), Model::faulty(slip));
    let mut bench = Bench::new(&both, &both);
    let mut random = Random::new(1);
    (0..2000).try_for_each(|_| {
        make(&mut random, &mut bench, &sound.codes)?;
        read(&mut random, &mut bench, &sound.codes)
    })
}

#[test]
fn the_promise_finds_each_slip_too() {
    for slip in [slips("make-"), slips("next-")].concat() {
        assert!(promised(slip).is_err(), "{slip:?}");
    }
}

/// Slips of running a job, by which the present image does not become the wanted one, or not for as many pulses.
#[test]
fn what_is_made_and_what_is_run_are_held_to_each_other() {
    for slip in [Fault::BurnAsJudged, Fault::PulsesOfTarget] {
        let Difference(line) = promised(slip).expect_err(&format!("{slip:?}"));
        assert!(line.starts_with("a job made of two images fails: "), "{slip:?}: {line}");
    }
}
