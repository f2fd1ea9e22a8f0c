//! The slips that request 2026-12 invites: each is found among the cards and the jobs of every kind, and by what is promised of a card that is read
//! and of one that is written: by ECC reads, the area, the answers and the rows, without a model to compare with.

use compare::bench::{Bench, Difference};
use compare::cards::card_and_job;
use compare::every_card::every_card;
use compare::every_card_job::{every_card_job, every_kind_of_card};
use compare::fault::{Fault, FAULTS};
use compare::model::Model;
use compare::random::Random;

/// The slips of writing a card, or of reading one.
fn slips(written: bool) -> Vec<Fault> {
    let of_card = FAULTS.iter().filter(|(_, name, _)| name.starts_with("card-"));
    let list = of_card.filter(|(_, name, _)| name.starts_with("card-job-") == written);
    list.map(|(fault, ..)| *fault).collect()
}

#[test]
fn each_slip_is_found_among_all_cards_and_their_jobs() {
    let library = Model::sound();
    let sound = Model::sound();
    let mut bench = Bench::new(&library, &sound);
    for each in [every_card, every_card_job, every_kind_of_card] {
        assert!(each(&mut bench).is_ok());
    }
    assert_eq!((slips(false).len(), slips(true).len()), (49, 50));
    for (written, all) in [(false, every_card as fn(&mut Bench) -> _), (true, every_card_job)] {
        for slip in slips(written) {
            let model = Model::faulty(slip);
            assert!(all(&mut Bench::new(&library, &model)).is_err(), "{slip:?}");
        }
    }
}

/// Random cards, where both sides slip alike, so that no call differs.
fn promised(slip: Fault) -> Result<(), Difference> {
    let (sound, both) = (Model::sound(), Model::faulty(slip));
    let mut bench = Bench::new(&both, &both);
    let mut random = Random::new(1);
    (0..6000).try_for_each(|_| card_and_job(&mut random, &mut bench, &sound.codes))
}

#[test]
fn the_promise_finds_each_slip_too() {
    for slip in [slips(false), slips(true)].concat() {
        let Difference(line) = promised(slip).expect_err(&format!("{slip:?}"));
        let of_card = line.starts_with("a card fails: ") || line.starts_with("a written card fails: ");
        assert!(of_card, "{slip:?}: {line}");
    }
}
