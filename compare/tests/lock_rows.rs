//! Request 2026-02 on the model alone: raw writes to a lock row where its own word and pages 62 and 63 differ in their keys.

use compare::bench::Bench;
use compare::call::{Call, Chip};
use compare::fault::Fault;
use compare::lock_rows::every_lock_row;
use compare::model::Model;
use compare::shape::{Key, State, ROWS};

/// Lock words, and the page whose keys they take: 0 to 31 take page 62's, 32 to 63 take page 63's.
const WORDS: [(u32, usize); 6] = [(0, 62), (31, 62), (32, 63), (61, 63), (62, 63), (63, 63)];
const KEY: [u16; 8] = [7; 8];

/// One page asks for key 1, which is entered or is not.
fn asking(page: usize, entered: bool) -> State {
    let mut state = State::blank();
    state.keys[0] = Key {
        words: KEY,
        valid: true,
        whole: true,
    };
    state.writekey[page] = 1;
    if entered {
        state.entered = KEY;
    }
    state
}

/// The number of a raw write of a lock word's low and high row.
fn numbers(caller: u32, word: u32, state: State) -> [u32; 2] {
    let model = Model::sound();
    [0xf80 + 2 * word, 0xf81 + 2 * word].map(|row| {
        let call = Call::WriteRaw { caller, row, value: 1 };
        model.make(&call, &mut vec![0; ROWS], state).answer.number
    })
}

#[test]
fn a_lock_row_is_written_by_the_keys_of_page_62_or_63() {
    for (word, from) in WORDS {
        for caller in [0, 1, 2] {
            for page in [word as usize, 62, 63] {
                let refused = if page == from { 7 } else { 0 };
                let (none, entered) = (asking(page, false), asking(page, true));
                assert_eq!(numbers(caller, word, none), [refused; 2], "word {word}, page {page}");
                assert_eq!(numbers(caller, word, entered), [0; 2], "word {word}, page {page}");
            }
        }
    }
}

#[test]
fn each_slip_is_found_among_all_lock_rows() {
    let library = Model::sound();
    let all = |model: &Model| every_lock_row(&mut Bench::new(&library, model));
    assert!(all(&Model::sound()).is_ok());
    for slip in [
        Fault::LockRowOwnWord,
        Fault::LockPagesSwapped,
        Fault::LockBorder,
        Fault::LockRowLevels,
    ] {
        assert!(all(&Model::faulty(slip)).is_err(), "{slip:?}");
    }
}
