//! No clause of agreement is too much: for each, two chips that differ in it alone, and a Non-secure call that tells them apart. The key
//! indexes are the one clause that no call tells: a plug-in sees only the key level that they give.

use crate::agreement::{disagreements, Clause};
use crate::bench::Difference;
use crate::call::Call;
use crate::shape::{Answer, Key, BOOTLOADER, LOCK_ROWS, NONSECURE, ROWS, SECURE};
use crate::states::{set_keys, with_keys};
use crate::two_chips::{Board, TwoChips};
use crate::written_pair::every_call;

const CALLER: u32 = NONSECURE;
const PAGE: usize = 3;
const ROW: u32 = 0x0c0;
const KEY_ROW: u32 = 0xf48;
/// The code of 1.
const ENTRY: u32 = 0x23_0001;

/// A clause, two chips that differ in it, all the clauses in which they do, and the call that tells them apart, if one does.
struct Line {
    clause: Clause,
    boards: [Board; 2],
    differ: Vec<Clause>,
    call: Option<Call>,
}

fn line(clause: Clause, call: Option<Call>, boards: [Board; 2]) -> Line {
    Line {
        clause,
        boards,
        differ: vec![clause],
        call,
    }
}

/// Two chips made from blank ones: both in one way, then the second in another.
fn boards(both: impl Fn(&mut Board), second: impl Fn(&mut Board)) -> [Board; 2] {
    let mut boards = [Board::blank(), Board::blank()];
    boards.iter_mut().for_each(both);
    second(&mut boards[1]);
    boards
}

fn read(row: u32) -> Option<Call> {
    Some(Call::ReadRaw { caller: CALLER, row })
}

fn write(row: u32) -> Option<Call> {
    let (caller, value) = (CALLER, 1);
    Some(Call::WriteRaw { caller, row, value })
}

/// Two blank chips of which the second has another length or level.
fn lengths_and_levels() -> [Line; 4] {
    let level = |domain| Clause::Level { domain, page: PAGE };
    let but = |change: fn(&mut Board)| boards(|_| {}, change);
    let show = Some(Call::Show {
        caller: CALLER,
        domain: BOOTLOADER,
        page: PAGE as u32,
    });
    [
        line(Clause::RowsLent, read(ROW), but(|board| board.lent = ROWS - 1)),
        line(level(SECURE), write(ROW), but(|board| board.state.secure[PAGE] = 1)),
        line(
            level(NONSECURE),
            read(ROW),
            but(|board| board.state.nonsecure[PAGE] = 2),
        ),
        line(level(BOOTLOADER), show, but(|board| board.state.bootloader[PAGE] = 1)),
    ]
}

/// Both hold the code of 1 in the first row of key 1. It is latched valid on the first.
fn valid_flag() -> Line {
    let both = |board: &mut Board| {
        board.rows[KEY_ROW as usize] = ENTRY;
        board.state.keys[0].valid = true;
    };
    let boards = boards(both, |board| board.state.keys[0].valid = false);
    line(Clause::ValidFlag { key: 1 }, read(KEY_ROW), boards)
}

/// On both a page asks for key 1 to be written, and gives no access without it. It is entered on the first.
fn asking(page: usize) -> [Board; 2] {
    let words = [1, 0, 0, 0, 0, 0, 0, 0];
    let both = |board: &mut Board| {
        let (valid, whole) = (true, true);
        board.state.keys[0] = Key { words, valid, whole };
        set_keys(&mut board.state, page, (1, 0, true));
        board.state.entered = words;
    };
    boards(both, |board| board.state.entered = [0; 8])
}

/// Of a page and of a lock row. The rows of lock words 0 to 31 have page 62's key level, so with one of them all differ, and the page.
fn key_levels() -> [Line; 2] {
    let of_page = |page| Clause::KeyLevel { page };
    let of_lock_row = |row| Clause::LockRowKeyLevel { row };
    let mut words = line(of_lock_row(LOCK_ROWS), write(LOCK_ROWS), asking(62));
    words.differ = vec![of_page(62)];
    words.differ.extend((LOCK_ROWS..LOCK_ROWS + 64).map(of_lock_row));
    [line(of_page(PAGE), read(ROW), asking(PAGE)), words]
}

/// Of a lock row, and of a row that Non-secure may read.
fn entries() -> [Line; 2] {
    let holding = |row: u32, entry| boards(|_| {}, move |board| board.rows[row as usize] = entry);
    let (caller, row) = (CALLER, ROW);
    let read_ecc = Some(Call::ReadEcc { caller, row });
    [
        line(Clause::Entry { row: LOCK_ROWS }, read(LOCK_ROWS), holding(LOCK_ROWS, 1)),
        line(Clause::Entry { row }, read_ecc, holding(row, ENTRY)),
    ]
}

/// A page asks for key 1 on the first and for key 2 on the second, to write or to read. Neither is entered.
fn key_indexes() -> [Line; 2] {
    let settings = |settings: [(u8, u8); 2]| {
        settings.map(|(write, read)| {
            let mut state = with_keys(false);
            set_keys(&mut state, PAGE, (write, read, false));
            Board {
                state,
                ..Board::blank()
            }
        })
    };
    [
        line(Clause::WriteIndex { page: PAGE }, None, settings([(1, 0), (2, 0)])),
        line(Clause::ReadIndex { page: PAGE }, None, settings([(0, 1), (0, 2)])),
    ]
}

impl Line {
    /// Lays the chips out and makes the calls. Gives the line of the table.
    fn made(&self, chips: &mut TwoChips) -> Result<String, Difference> {
        let (clause, [one, other]) = (self.clause, self.boards.each_ref().map(Board::side));
        let found = disagreements(one, other);
        if found != self.differ {
            return Err(Difference(format!(
                "two chips that are to differ in the {clause} alone differ in {found:?}"
            )));
        }
        chips.lay_out(&self.boards);
        let told = match &self.call {
            Some(call) => self.told(chips, call)?,
            None => self.untold(chips)?,
        };
        let has = format!("{} / {}", clause.shown(one), clause.shown(other));
        Ok(format!("{:<30}  {has:<19}  {told}", clause.to_string()))
    }

    /// By the call that is to tell the chips apart.
    fn told(&self, chips: &mut TwoChips, call: &Call) -> Result<String, Difference> {
        let [one, other] = chips
            .answers(call, self.boards.each_ref().map(|board| board.lent))?
            .map(|seen| seen.answer);
        let shown = |answer: Answer| format!("{} value {:#x}", answer.number, answer.value);
        let both = format!("{:<38}  {} / {}", call.to_string(), shown(one), shown(other));
        match (one.number, one.value) != (other.number, other.value) {
            true => Ok(both),
            false => Err(Difference(format!("no call tells the {}: {both}", self.clause))),
        }
    }

    /// By every call, none of which tells them apart or makes them differ in more.
    fn untold(&self, chips: &mut TwoChips) -> Result<String, Difference> {
        let calls = every_call();
        for call in &calls {
            chips.alike(call, ROWS)?;
        }
        let [one, other] = chips.sides();
        match disagreements(one, other) == self.differ {
            true => Ok(format!("no call tells: the same answer to all of {}", calls.len())),
            false => Err(Difference(format!(
                "calls changed what differs beside the {}",
                self.clause
            ))),
        }
    }
}

/// The table, a line for each clause.
pub fn table(chips: &mut TwoChips) -> Result<Vec<String>, Difference> {
    let lines = lengths_and_levels().into_iter().chain([valid_flag()]);
    let lines = lines.chain(key_levels()).chain(entries()).chain(key_indexes());
    lines.map(|line| line.made(chips)).collect()
}
