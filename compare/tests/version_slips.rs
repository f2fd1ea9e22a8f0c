//! The slips that request 2026-09 invites: each is found among the jobs of every version, and those that break what is promised of a cut job
//! are found by its rows and answers, without a model to compare with.

use compare::bench::{Bench, Difference};
use compare::every_lock_cut::every_lock_cut;
use compare::every_version::every_version;
use compare::fault::Fault;
use compare::model::Model;
use compare::random::Random;
use compare::sequences::cut;

/// Each slip, and whether it breaks the promise, or keeps a kind of end from coming up.
const SLIPS: [(Fault, bool); 24] = [
    (Fault::Version3, false),
    (Fault::Version2Refused, true),
    (Fault::VersionLowByte, false),
    (Fault::Version1AsTwo, false),
    (Fault::Version2AsOne, true),
    (Fault::RowF40Taken, true),
    (Fault::RowF7fTaken, true),
    (Fault::Row4096Taken, true),
    (Fault::RowAbove2, false),
    (Fault::EccLockTaken, false),
    (Fault::EccLock10, false),
    (Fault::DataAfterLock, true),
    (Fault::LocksFall, false),
    (Fault::NoLocksRefused, false),
    (Fault::NoDataRefused, false),
    (Fault::OrderFirst, false),
    (Fault::JobLockOwnWord, false),
    (Fault::JobLockUnjudged, true),
    (Fault::LockRefusesLater, false),
    (Fault::JobLatches, false),
    (Fault::LocksFirst, true),
    (Fault::CutLockWhole, true),
    (Fault::PlaceDataOnly, true),
    (Fault::JobTallyLockWord, true),
];

fn every(bench: &mut Bench) -> bool {
    every_version(bench).and_then(|()| every_lock_cut(bench)).is_err()
}

#[test]
fn each_slip_is_found_among_all_versions() {
    let library = Model::sound();
    assert!(!every(&mut Bench::new(&library, &Model::sound())));
    for (slip, _) in SLIPS {
        assert!(every(&mut Bench::new(&library, &Model::faulty(slip))), "{slip:?}");
    }
}

/// Random jobs that are cut. What is promised of a job that is sent in chunks is tried elsewhere.
fn cut_jobs(bench: &mut Bench, sound: &Model) -> Result<(), Difference> {
    let mut random = Random::new(1);
    (0..500).try_for_each(|_| cut(&mut random, bench, &sound.codes))
}

/// Both sides slip alike, so no call differs.
#[test]
fn the_promise_finds_each_slip_that_breaks_it() {
    let sound = Model::sound();
    for (slip, breaks) in SLIPS {
        let both = Model::faulty(slip);
        let mut bench = Bench::new(&both, &both);
        let found = every_lock_cut(&mut bench).and_then(|()| cut_jobs(&mut bench, &sound));
        assert_eq!(found.is_err(), breaks, "{slip:?}: {found:?}");
    }
}
