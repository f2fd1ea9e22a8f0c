//! Two chips written out that agree, the same two as in the proofs, and every row, domain and page asked for by a plug-in on both.

use crate::agreement::disagreements;
use crate::bench::Difference;
use crate::call::Call;
use crate::shape::{Key, DOMAINS, NONSECURE, PAGES, ROWS};
use crate::states::set_keys;
use crate::two_chips::{Board, TwoChips};
use crate::unlike::{Unlike, KINDS};

/// Rows of the page that Non-secure may not read, and the first row of key 1.
const LOCKED_PAGE: usize = 2;
const LOCKED_ROWS: [usize; 2] = [0x080, 0x081];
const KEY_ROW: usize = 0xf48;
/// The page that asks for key 1 to be written.
const KEY_PAGE: usize = 3;

/// What differs: the entries of the locked rows, that of the key row, which is the code of the key's first word, that word in key 1 and
/// in the entered key, which are equal, the key page's no-key state and whether key 2, which is not valid, is whole, and the locked page's
/// tally.
pub struct Written {
    locked: [u32; 2],
    pub key_row: u32,
    pub word: u16,
    flag: bool,
    tally: u16,
}

pub const WRITTEN: [Written; 2] = [
    Written {
        locked: [0x23_0001, 0],
        key_row: 0x23_0001,
        word: 1,
        flag: false,
        tally: 4,
    },
    Written {
        locked: [0xdc_fffe, 0xffff_ffff],
        key_row: 0x25_0002,
        word: 2,
        flag: true,
        tally: 1536,
    },
];

/// In what the two must differ.
const UNLIKE: [Unlike; 9] = [
    Unlike::HiddenRow,
    Unlike::LockedRow,
    Unlike::Oversized,
    Unlike::KeyWords,
    Unlike::Whole,
    Unlike::NoKey,
    Unlike::Entered,
    Unlike::EnteredMatches,
    Unlike::Tally,
];

fn board(written: &Written) -> Board {
    let mut board = Board::blank();
    for (row, entry) in LOCKED_ROWS.into_iter().zip(written.locked) {
        board.rows[row] = entry;
    }
    board.rows[KEY_ROW] = written.key_row;
    let state = &mut board.state;
    state.nonsecure[LOCKED_PAGE] = 2;
    set_keys(state, KEY_PAGE, (1, 0, written.flag));
    state.entered[0] = written.word;
    state.keys[0] = Key {
        words: state.entered,
        valid: true,
        whole: true,
    };
    state.keys[1].whole = written.flag;
    state.tallies[LOCKED_PAGE] = written.tally;
    board
}

pub fn boards() -> [Board; 2] {
    WRITTEN.each_ref().map(board)
}

/// Every row read, voted and written, and one past the last; the card read; every lock shown, and each of Non-secure's advanced.
pub fn every_call() -> Vec<Call> {
    let caller = NONSECURE;
    let kinds: [fn(u32, u32) -> Call; 6] = [
        |caller, row| Call::ReadRaw { caller, row },
        |caller, row| Call::ReadEcc { caller, row },
        |caller, row| Call::ReadVote { caller, row, count: 3 },
        |caller, row| Call::ReadVote { caller, row, count: 8 },
        |caller, row| Call::WriteRaw { caller, row, value: 1 },
        |caller, row| Call::WriteEcc { caller, row, value: 1 },
    ];
    let of_rows = kinds
        .iter()
        .flat_map(|kind| (0..=ROWS as u32).map(|row| kind(caller, row)));
    let pages = 0..PAGES as u32;
    let shows = (0..DOMAINS).flat_map(|domain| pages.clone().map(move |page| Call::Show { caller, domain, page }));
    let advances = pages.clone().map(|page| Call::Advance {
        caller,
        domain: NONSECURE,
        page,
        level: 1,
    });
    of_rows
        .chain([Call::ReadCard {}])
        .chain(shows)
        .chain(advances)
        .collect()
}

/// Makes all these calls on both chips, which agree before and after.
pub fn written_pair(chips: &mut TwoChips) -> Result<(), Difference> {
    let boards = boards();
    let [one, other] = [boards[0].side(), boards[1].side()];
    if let Some(clause) = disagreements(one, other).first() {
        return Err(Difference(format!("the written pair does not agree: {clause}")));
    }
    if let Some((_, name)) = KINDS
        .iter()
        .find(|(kind, _)| UNLIKE.contains(kind) && !kind.shows(one, other))
    {
        return Err(Difference(format!("the written pair does not differ in {name}")));
    }
    chips.lay_out(&boards);
    for call in every_call() {
        chips.alike(&call, ROWS)?;
    }
    chips.agree("every call on the written pair")
}
