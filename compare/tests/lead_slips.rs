//! The slips that request 2026-01 invites: each is found among the cuttings, notes and areas of every kind, and those that break what is
//! promised of a job sent in chunks are found by the bytes sent, the answers and the rows, without a model to compare with.

use compare::bench::{Bench, Difference};
use compare::cuttings::send;
use compare::every_cutting::every_cutting;
use compare::every_note::every_note;
use compare::fault::Fault;
use compare::model::Model;
use compare::random::Random;

/// Each slip, and whether it breaks the promise, or keeps a kind of word and end from coming up. The others show where something is wrong
/// already, or need a note or an area that no chunk leaves.
const SLIPS: [(Fault, bool); 40] = [
    (Fault::Room3078, true),
    (Fault::Room3080, true),
    (Fault::RefusedMoves, true),
    (Fault::RefusedStores, true),
    (Fault::Byte3080, true),
    (Fault::AreaCleared, true),
    (Fault::Count3079, true),
    (Fault::CountAsItCame, false),
    (Fault::WordRefuses, true),
    (Fault::PartForgotten, true),
    (Fault::PartInArea, false),
    (Fault::PartTail, false),
    (Fault::PartPastCount, false),
    (Fault::PartEmptied, true),
    (Fault::LeastForgotten, true),
    (Fault::LeastIsAbove, true),
    (Fault::LeastOfGood, false),
    (Fault::LeastOfFormed, false),
    (Fault::LeastRises, false),
    (Fault::LastWord, false),
    (Fault::TenBeforeEleven, true),
    (Fault::EarlyOrderFirst, false),
    (Fault::WordSticks, true),
    (Fault::HeadAgain, false),
    (Fault::MarkAtItsEnd, false),
    (Fault::VersionAtLow, false),
    (Fault::RowAtOnce, false),
    (Fault::EarlyAsOne, true),
    (Fault::EarlyAsTwo, true),
    (Fault::UnknownAsTwo, false),
    (Fault::Early513, true),
    (Fault::PastUnsaid, true),
    (Fault::PastTooSoon, true),
    (Fault::PastOnce, false),
    (Fault::End12First, false),
    (Fault::End10First, false),
    (Fault::EndRoomOfCount, false),
    (Fault::EndWholeArea, true),
    (Fault::End3079, true),
    (Fault::EndByPart, false),
];

/// Slips of running a job, by which it takes or refuses other files than the early word goes by.
const OF_FORM: [Fault; 16] = [
    Fault::EqualRows,
    Fault::OrderFirst,
    Fault::Version3,
    Fault::Version2Refused,
    Fault::VersionLowByte,
    Fault::Version1AsTwo,
    Fault::Version2AsOne,
    Fault::RowF40Taken,
    Fault::RowF7fTaken,
    Fault::Row4096Taken,
    Fault::RowAbove2,
    Fault::EccLockTaken,
    Fault::DataAfterLock,
    Fault::LocksFall,
    Fault::NoLocksRefused,
    Fault::NoDataRefused,
];

#[test]
fn each_slip_is_found_among_all_cuttings_and_notes() {
    let library = Model::sound();
    let all = |model: &Model| {
        let mut bench = Bench::new(&library, model);
        every_note(&mut bench).and_then(|()| every_cutting(&mut bench))
    };
    assert!(all(&Model::sound()).is_ok());
    for (slip, _) in SLIPS {
        assert!(all(&Model::faulty(slip)).is_err(), "{slip:?}");
    }
}

/// Every cutting and random ones, where both sides slip alike, so that no call differs.
fn promised(slip: Fault) -> Result<(), Difference> {
    let (sound, both) = (Model::sound(), Model::faulty(slip));
    let mut bench = Bench::new(&both, &both);
    let mut random = Random::new(1);
    (0..1000).try_for_each(|_| send(&mut random, &mut bench, &sound.codes))?;
    every_cutting(&mut bench)
}

#[test]
fn the_promise_finds_each_slip_that_breaks_it() {
    for (slip, breaks) in SLIPS {
        let found = promised(slip);
        assert_eq!(found.is_err(), breaks, "{slip:?}: {found:?}");
    }
}

#[test]
fn the_early_word_and_the_run_are_held_to_each_other() {
    for slip in OF_FORM {
        let Difference(line) = promised(slip).expect_err(&format!("{slip:?}"));
        assert!(line.starts_with("a job sent in chunks fails: "), "{slip:?}: {line}");
    }
}
