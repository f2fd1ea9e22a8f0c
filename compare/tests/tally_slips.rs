//! The slips that request 2026-07 invites: each is found among the calls that are made from tallies of every kind. Without a model to compare
//! with, a recount of the rows finds those that show after a reset, and what a repair pass is held to finds those that show in its tallies.

use compare::bench::Bench;
use compare::every_tally::every_tally;
use compare::fault::Fault;
use compare::model::Model;
use compare::run::run;

/// Each slip, and whether it shows after a reset, or after a repair pass from any tallies. The others need another call from tallies that no
/// reset leaves.
const SLIPS: [(Fault, bool); 17] = [
    (Fault::TallyByLockWord, true),
    (Fault::ResetByLockWord, true),
    (Fault::RowTooFew, true),
    (Fault::TalliesKept, true),
    (Fault::RefusedCounts, true),
    (Fault::RefusedLowers, false),
    (Fault::CountAsJudged, true),
    (Fault::JobOnFirstPage, true),
    (Fault::RehearsalUncount, true),
    (Fault::CutLeftOut, true),
    (Fault::CutCountsWhole, true),
    (Fault::CutUnnamed, false),
    (Fault::OldBitsCount, true),
    (Fault::NoLimit, true),
    (Fault::SumWraps, true),
    (Fault::NamedAbove, true),
    (Fault::OthersLowered, true),
];

#[test]
fn each_slip_is_found_among_all_tallies() {
    let library = Model::sound();
    let all = |model: &Model| every_tally(&mut Bench::new(&library, model));
    assert!(all(&Model::sound()).is_ok());
    for (slip, _) in SLIPS {
        assert!(all(&Model::faulty(slip)).is_err(), "{slip:?}");
    }
}

/// Both sides slip alike, so no call differs.
#[test]
fn a_recount_or_a_repair_pass_finds_each_slip_that_shows_in_it() {
    let sound = Model::sound();
    for (slip, shows) in SLIPS {
        let both = Model::faulty(slip);
        let mut bench = Bench::new(&both, &both);
        let found = run(&mut bench, &sound.codes, &sound, 50_000, 1).is_err();
        assert_eq!(found, shows, "{slip:?}");
    }
}
