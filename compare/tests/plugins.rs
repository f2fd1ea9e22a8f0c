//! Request 2026-10 on the model alone: what agreement says of each clause, that the sound model tells a plug-in nothing more, and that each
//! leak is found.

use compare::agreement::{disagreements, Clause};
use compare::bench::Difference;
use compare::call::{Call, Chip};
use compare::fault::Fault;
use compare::model::Model;
use compare::plugins::run;
use compare::shape::{Key, Outcome, State, LARGEST};
use compare::sharpness::table;
use compare::two_chips::{Board, TwoChips};
use compare::unlike::Seen;
use compare::written_pair::{written_pair, WRITTEN};

/// The slips that let a plug-in learn what it may not, each in its own way.
const LEAKS: [Fault; 11] = [
    Fault::SizeFirst,
    Fault::VoteSizesFirst,
    Fault::HiddenIfBurnt,
    Fault::SecureLockAlone,
    Fault::ReadKeyLevel0,
    Fault::PartialKey,
    Fault::ZeroKey,
    Fault::LevelWraps,
    Fault::IndexWraps,
    Fault::CardAsSecure,
    Fault::CardAsBoot,
];

/// Rows of the chip below: of a page that is locked to Non-secure, of one that its key closes, and of a valid key.
const UNKNOWN: [u32; 6] = [0x080, 0x0bf, 0x100, 0x13f, 0xf50, 0xf57];

/// Page 2 is locked to Non-secure, page 4 asks for key 3 and gives no access without it, and key 2 is valid. Page 5 may be read, at Non-secure
/// level 1; page 6 is locked to Secure and the bootloader; page 7 asks for key 3 and may be read without it.
fn chip() -> Board {
    let mut board = Board::blank();
    let state = &mut board.state;
    state.nonsecure[2] = 2;
    state.nonsecure[5] = 1;
    (state.secure[6], state.bootloader[6]) = (2, 2);
    (state.writekey[4], state.nokey[4]) = (3, true);
    state.readkey[7] = 3;
    state.keys[1].valid = true;
    board
}

/// The clauses in which a chip and a changed copy of it do not agree: the same, whichever comes first.
fn after(before: &Board, change: impl Fn(&mut Board)) -> Vec<Clause> {
    let mut changed = before.clone();
    change(&mut changed);
    let found = disagreements(before.side(), changed.side());
    assert_eq!(found, disagreements(changed.side(), before.side()));
    found
}

#[test]
fn agreement_says_each_clause() {
    let level = |domain| vec![Clause::Level { domain, page: 9 }];
    let said = |change: fn(&mut Board)| after(&chip(), change);
    assert_eq!(said(|board| board.lent = 4095), [Clause::RowsLent]);
    assert_eq!(said(|board| board.lent = 0), [Clause::RowsLent]);
    assert_eq!(said(|board| board.state.secure[9] = 1), level(0));
    assert_eq!(said(|board| board.state.nonsecure[9] = 1), level(1));
    assert_eq!(said(|board| board.state.bootloader[9] = 2), level(2));
    assert_eq!(
        said(|board| board.state.writekey[4] = 6),
        [Clause::WriteIndex { page: 4 }]
    );
    assert_eq!(
        said(|board| board.state.readkey[4] = 7),
        [Clause::ReadIndex { page: 4 }]
    );
    assert_eq!(
        said(|board| board.state.nokey[4] = false),
        [Clause::KeyLevel { page: 4 }]
    );
    assert_eq!(
        said(|board| board.state.keys[5].valid = true),
        [Clause::ValidFlag { key: 6 }]
    );
}

/// An index that is registered alone gives its page a key level too: on page 63 that of 64 lock rows.
#[test]
fn a_key_level_is_a_clause_of_its_own() {
    let lock_rows = (0xfc0..0x1000).map(|row| Clause::LockRowKeyLevel { row });
    let page = 63;
    let mut clauses = vec![Clause::WriteIndex { page }, Clause::KeyLevel { page }];
    clauses.extend(lock_rows);
    assert_eq!(after(&chip(), |board| board.state.writekey[63] = 7), clauses);
    let key = |board: &mut Board| {
        board.state.keys[2] = Key {
            words: [5; 8],
            valid: true,
            whole: true,
        };
    };
    let mut with_key = chip();
    key(&mut with_key);
    let entered = after(&with_key, |board| board.state.entered = [5; 8]);
    assert_eq!(entered, [Clause::KeyLevel { page: 4 }]);
}

/// Every row, with an entry that fits and one that does not.
#[test]
fn an_entry_is_a_clause_where_a_plug_in_knows_it() {
    for row in 0..4096 {
        let unknown = [0x080..=0x0bf, 0x100..=0x13f, 0xf50..=0xf57]
            .iter()
            .any(|rows| rows.contains(&row));
        for entry in [1, LARGEST + 1] {
            let found = after(&chip(), |board| board.rows[row as usize] = entry);
            let clauses = if unknown { vec![] } else { vec![Clause::Entry { row }] };
            assert_eq!(found, clauses, "row {row:#05x}");
        }
    }
}

#[test]
fn all_else_may_differ() {
    let mut base = chip();
    base.state.secure[30] = 2;
    (base.state.writekey[31], base.state.readkey[31]) = (7, 7);
    let found = after(&base, |board| {
        for row in UNKNOWN {
            board.rows[row as usize] = u32::MAX;
        }
        board.rows[4096..].fill(9);
        let state = &mut board.state;
        state.tallies = [77; 64];
        state.nokey[9] = true;
        state.entered = [5; 8];
        state
            .keys
            .iter_mut()
            .for_each(|key| (key.words, key.whole) = ([6; 8], true));
        state.secure[30] = 255;
        (state.writekey[31], state.readkey[31]) = (8, 255);
    });
    assert_eq!(found, []);
}

/// Random lists on pairs of a chip.
fn lists(chip: &dyn Chip, calls: u64) -> (Result<(), Difference>, Seen) {
    let sound = Model::sound();
    let mut seen = Seen::default();
    let mut chips = TwoChips::new([chip, chip], chip);
    let result = run(&mut chips, &mut seen, (&sound.codes, &sound), calls, 1);
    (result, seen)
}

#[test]
fn a_plug_in_learns_nothing_of_the_sound_model() {
    let (result, seen) = lists(&Model::sound(), 20_000);
    assert!(result.is_ok(), "{result:?}");
    assert_eq!(seen.missing(), None);
}

/// By the answers: each leaves agreement to the sound rules, which do not slip.
#[test]
fn each_leak_is_found() {
    for leak in LEAKS {
        let (result, _) = lists(&Model::faulty(leak), 100_000);
        let Difference(line) = result.expect_err(&format!("{leak:?}"));
        assert!(line.contains(" tells the chips apart: "), "{leak:?}: {line}");
    }
}

/// Answers soundly, and lets what a plug-in does not know into what it does.
struct Spills {
    model: Model,
    spill: fn(&mut [u32], &mut State),
}

impl Chip for Spills {
    fn make(&self, call: &Call, rows: &mut [u32], state: State) -> Outcome {
        let mut outcome = self.model.make(call, rows, state);
        if matches!(call, Call::WriteRaw { .. }) && outcome.answer.number == 0 {
            (self.spill)(rows, &mut outcome.state);
        }
        outcome
    }
}

#[test]
fn what_a_call_spills_is_found_before_it_is_read() {
    let spills: [fn(&mut [u32], &mut State); 3] = [
        |rows, _| rows[0xfff] |= rows[0xf48] & 1,
        |_, state| state.nonsecure[9] |= u8::from(state.tallies[9] > 9),
        |_, state| state.keys[0].valid |= state.keys[0].whole,
    ];
    for spill in spills {
        let model = Model::sound();
        let (result, _) = lists(&Spills { model, spill }, 20_000);
        let Difference(line) = result.expect_err("a spill");
        assert!(line.contains(" the chips do not agree: "), "{line}");
    }
}

#[test]
fn the_written_key_rows_hold_the_code_of_their_word() {
    let codes = Model::sound().codes;
    for written in WRITTEN {
        assert_eq!(written.key_row, codes.of(written.word.into()));
    }
}

/// Those that its differences show. An advance that lowers a level opens the locked page.
#[test]
fn the_written_pair_finds_leaks_too() {
    let all = |model: &Model| written_pair(&mut TwoChips::new([model, model], model));
    assert!(all(&Model::sound()).is_ok());
    for leak in [
        Fault::SizeFirst,
        Fault::VoteSizesFirst,
        Fault::SecureLockAlone,
        Fault::AdvanceLowers,
    ] {
        assert!(all(&Model::faulty(leak)).is_err(), "{leak:?}");
    }
}

/// Every clause has its line, and a model that does not answer by a clause fails in it.
#[test]
fn every_clause_but_the_key_indexes_is_told() {
    let all = |model: &Model| table(&mut TwoChips::new([model, model], model));
    let lines = all(&Model::sound()).expect("every clause is told");
    let untold: Vec<bool> = lines.iter().map(|line| line.contains("no call tells")).collect();
    assert_eq!(untold, [vec![false; 9], vec![true; 2]].concat());
    for (fault, clause) in [
        (Fault::NonsecureOwnLock, "no call tells the Secure level of page 3"),
        (Fault::Domain2Unshown, "no call tells the bootloader level of page 3"),
        (Fault::LockRowOwnWord, "no call tells the key level of lock row 0xf80"),
    ] {
        let Difference(line) = all(&Model::faulty(fault)).expect_err(clause);
        assert!(line.starts_with(clause), "{line}");
    }
}
