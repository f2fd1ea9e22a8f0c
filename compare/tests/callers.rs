//! Request 2026-05 on the model alone, its sentences written out as tables: who may show and advance which lock, who enters a
//! key, what a read and a write need, and what reset latches of a high lock row.

use compare::bench::Bench;
use compare::call::{Call, Chip};
use compare::callers::every_caller;
use compare::fault::Fault;
use compare::lock_bytes::every_lock_byte;
use compare::model::Model;
use compare::shape::{Answer, Key, Outcome, State, ROWS};

const PAGE: usize = 3;
const ROW: u32 = 0x0c0;
const KEY: [u16; 8] = [7; 8];

/// The numbers of an advance, a line for each caller and a column for each domain: Secure, Non-secure, bootloader, none.
const ADVANCE: [[u32; 4]; 4] = [
    [0, 0, 7, 4], // Secure
    [7, 0, 7, 4], // Non-secure
    [7, 7, 7, 4], // the bootloader
    [4, 4, 4, 4], // no caller
];

/// The numbers of a show, in the same way.
const SHOW: [[u32; 4]; 4] = [[0, 0, 0, 4], [0, 0, 0, 4], [0, 0, 0, 4], [4, 4, 4, 4]];

/// The numbers of entering a key of 16 bytes, and of 15, by caller.
const ENTER: [[u32; 2]; 4] = [[0, 4], [7, 4], [7, 4], [4, 4]];

/// The levels that a caller's read goes by, the highest of which is at most 1, and those that its write goes by, which are all
/// 0: Secure, Non-secure, bootloader, key.
const READ: [&[usize]; 3] = [&[0, 3], &[1, 3], &[2, 0, 3]];
const WRITE: [&[usize]; 3] = [&[0, 3], &[1, 0, 3], &[2, 0, 3]];

thread_local! {
    static MODEL: Model = Model::sound();
}

fn make(call: &Call, rows: &mut [u32], state: State) -> Outcome {
    MODEL.with(|model| model.make(call, rows, state))
}

/// A page with these levels: Secure, Non-secure, bootloader, and the key level, which a key that is not entered leaves to the
/// no-key state.
fn page_at(page: usize, [secure, nonsecure, bootloader, key]: [u8; 4]) -> State {
    let mut state = State::blank();
    state.secure[page] = secure;
    state.nonsecure[page] = nonsecure;
    state.bootloader[page] = bootloader;
    state.keys[0] = Key {
        words: KEY,
        valid: true,
        whole: true,
    };
    state.writekey[page] = u8::from(key > 0);
    state.nokey[page] = key == 2;
    state
}

/// Every choice of four numbers below a bound.
fn fours(bound: u8) -> impl Iterator<Item = [u8; 4]> {
    let choices = u32::from(bound).pow(4);
    (0..choices).map(move |choice| [0, 1, 2, 3].map(|place| (choice / u32::from(bound).pow(place)) as u8 % bound))
}

/// The levels of a domain.
fn levels(state: &mut State, domain: u8) -> &mut [u8; 64] {
    match domain {
        0 => &mut state.secure,
        1 => &mut state.nonsecure,
        _ => &mut state.bootloader,
    }
}

#[test]
fn who_advances_what() {
    for [caller, domain, present, level] in fours(4) {
        let mut before = page_at(PAGE, [0, 0, 0, 0]);
        let mut after = before;
        let number = ADVANCE[caller as usize][domain as usize];
        let number = if level > 2 { 4 } else { number };
        if domain < 3 {
            levels(&mut before, domain)[PAGE] = present;
            levels(&mut after, domain)[PAGE] = if number == 0 { present.max(level) } else { present };
        }
        let call = |page| Call::Advance {
            caller: caller.into(),
            domain: domain.into(),
            page,
            level: level.into(),
        };
        let made = make(&call(PAGE as u32), &mut [], before);
        assert_eq!(made.answer, Answer::refused(number), "{}", call(PAGE as u32));
        assert_eq!(made.state, after, "{}", call(PAGE as u32));
        let past = make(&call(64), &mut [], before);
        assert_eq!((past.answer, past.state), (Answer::refused(4), before));
    }
}

#[test]
fn every_caller_shows_every_level() {
    for [caller, domain, present, _] in fours(4) {
        let mut state = page_at(PAGE, [0, 0, 0, 0]);
        let number = SHOW[caller as usize][domain as usize];
        let mut answer = Answer::refused(number);
        if number == 0 {
            levels(&mut state, domain)[PAGE] = present;
            answer = Answer::value([0, 1, 2, 2][present as usize]);
        }
        let call = Call::Show {
            caller: caller.into(),
            domain: domain.into(),
            page: PAGE as u32,
        };
        assert_eq!(make(&call, &mut [], state).answer, answer, "{call}");
    }
}

#[test]
fn only_secure_enters_a_key() {
    for (caller, numbers) in (0..).zip(ENTER) {
        for (length, number) in [16, 15].into_iter().zip(numbers) {
            let key = vec![5; length];
            let made = make(&Call::EnterKey { caller, key }, &mut [], State::blank());
            let entered = if number == 0 { [0x0505; 8] } else { [0; 8] };
            assert_eq!(
                (made.answer.number, made.state.entered),
                (number, entered),
                "caller {caller}"
            );
        }
    }
}

/// The numbers of each read and each write of a row by a caller.
fn numbers(caller: u32, row: u32, state: State) -> ([u32; 3], [u32; 2]) {
    let of = |call| make(&call, &mut vec![0; ROWS], state).answer.number;
    let reads = [
        of(Call::ReadRaw { caller, row }),
        of(Call::ReadEcc { caller, row }),
        of(Call::ReadVote { caller, row, count: 3 }),
    ];
    let writes = [
        of(Call::WriteRaw { caller, row, value: 1 }),
        of(Call::WriteEcc { caller, row, value: 1 }),
    ];
    (reads, writes)
}

#[test]
fn a_read_needs_at_most_1_and_a_write_0() {
    for levels in fours(3) {
        let state = page_at(PAGE, levels);
        for (caller, (read, write)) in (0..).zip(READ.into_iter().zip(WRITE)) {
            let highest = |of: &[usize]| of.iter().map(|place| levels[*place]).max();
            let read = if highest(read) <= Some(1) { 0 } else { 7 };
            let write = if highest(write) == Some(0) { 0 } else { 7 };
            let found = numbers(caller, ROW, state);
            assert_eq!(found, ([read; 3], [write; 2]), "caller {caller}, levels {levels:?}");
        }
        assert_eq!(numbers(3, ROW, state), ([4; 3], [4; 2]));
    }
}

/// Lock word 3 goes by its own levels and by page 62's keys.
#[test]
fn every_caller_reads_every_lock_row() {
    for levels in fours(3) {
        let mut state = page_at(PAGE, levels);
        (state.writekey[62], state.nokey[62]) = (state.writekey[PAGE], state.nokey[PAGE]);
        for (caller, needed) in (0..).zip(WRITE) {
            let write = if needed.iter().all(|place| levels[*place] == 0) {
                0
            } else {
                7
            };
            for row in [0xf86, 0xf87] {
                let of = |call| make(&call, &mut vec![0; ROWS], state).answer.number;
                let found = [
                    of(Call::ReadRaw { caller, row }),
                    of(Call::WriteRaw { caller, row, value: 1 }),
                ];
                assert_eq!(found, [0, write], "caller {caller}, levels {levels:?}");
            }
        }
    }
}

#[test]
fn a_job_goes_by_secure_and_keys_alone() {
    let job = vec![0x4f, 0x54, 0x4a, 1, 0, 1, 0, ROW as u8, 0, 0, 1, 0, 0];
    for levels in fours(3) {
        let call = Call::RunJob { job: job.clone() };
        let made = make(&call, &mut vec![0; ROWS], page_at(PAGE, levels));
        let number = if levels[0] == 0 && levels[3] == 0 { 0 } else { 7 };
        assert_eq!(made.answer.number, number, "{levels:?}");
    }
}

/// Bits 1:0 Secure, 3:2 Non-secure, 5:4 bootloader; 7:6 mean nothing.
#[test]
fn reset_latches_three_levels_of_every_byte() {
    let level = [0, 1, 2, 2];
    for byte in 0..256 {
        let mut rows = vec![0; ROWS];
        rows[0xf87] = byte as u32 * 0x01_0101;
        let mut state = State::blank();
        state.secure[PAGE] = level[byte % 4];
        state.nonsecure[PAGE] = level[byte / 4 % 4];
        state.bootloader[PAGE] = level[byte / 16 % 4];
        state.keys.iter_mut().for_each(|key| key.whole = true);
        state.tallies[62] = 3 * (byte as u8).count_ones() as u16;
        assert_eq!(
            make(&Call::Reset {}, &mut rows, State::blank()).state,
            state,
            "{byte:#04x}"
        );
    }
}

#[test]
fn each_slip_is_found_among_all_callers() {
    let library = Model::sound();
    let all = |model: &Model| {
        let mut bench = Bench::new(&library, model);
        every_caller(&mut bench).and_then(|()| every_lock_byte(&mut bench))
    };
    assert!(all(&Model::sound()).is_ok());
    for slip in [
        Fault::BootBits76,
        Fault::BootBits32,
        Fault::BootField3,
        Fault::BootUnlatched,
        Fault::BootKept,
        Fault::BootReadOwn,
        Fault::BootReadSecure,
        Fault::BootReadKey,
        Fault::BootWriteOwn,
        Fault::BootWriteSecure,
        Fault::BootWriteKey,
        Fault::BootAsNonsecure,
        Fault::SecureAsBoot,
        Fault::AdvanceDomain2,
        Fault::Domain2Equal,
        Fault::BootAdvances,
        Fault::AdvanceMovesBoot,
        Fault::BootAdvance7First,
        Fault::BootEntersKey,
        Fault::BootKey7First,
        Fault::Caller2Refused,
        Fault::Caller3Allowed,
        Fault::Domain2Unshown,
        Fault::Domain3Allowed,
    ] {
        assert!(all(&Model::faulty(slip)).is_err(), "{slip:?}");
    }
}
