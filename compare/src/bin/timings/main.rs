//! How long each call takes: the library's beside the same rules written plainly in Rust with references, on the same
//! work; and how long a call takes that only has the shape of one.
//!
//! The last is no call but a screen's question, how many bits of a page are burnt: looked up in the state that the library gave
//! back, beside the page's 64 rows counted in plain Rust.
//!
//! Then the library is held to itself: over the lead a byte takes as long at the end of a job as at its beginning, and a whole job in
//! one chunk with its end not much longer than running it.
//!
//! Each call is made on a board of 512 burnt rows, one page of it behind a key that is entered, by Secure but for one read
//! by the bootloader, and is done. A job is made of two images with something burnt in every row, of which 512 are to be burnt further or none,
//! and a job of 512 entries is read to its end, entry by entry. A repair pass goes over rows of every sort, of which three in eight are mended:
//! those of a page, and all that a list can have. A card that is read, and one that is written, is of version 2. Before a call is timed both sides
//! make it once, and answer, state, rows, output, report and card must be the same.
//! `.ci/timings` builds and runs this.

mod work;

use std::hint::black_box;
use std::process::ExitCode;
use std::time::{Duration, Instant};

use compare::shape::BOOTLOADER;
use work::*;

type Library = unsafe extern "C" fn(&mut Work);
type Plain = fn(&mut Work);

/// A call: its name, how often it can be made on one work, what it needs of the work, and its two sides.
struct Timed(&'static str, u32, fn(&mut Work), Library, Plain);

const CALLS: [Timed; 26] = [
    Timed("reset", MANY, as_it_is, work_reset, reset),
    Timed("reset with six keys", MANY, burn_worn_keys, work_reset, reset),
    Timed("read raw", MANY, as_it_is, work_read_raw, read_raw),
    Timed("read raw as bootloader", MANY, by_bootloader, work_read_raw, read_raw),
    Timed("read ECC", MANY, as_it_is, work_read_ecc, read_ecc),
    Timed("read ECC behind a key", MANY, keyed_row, work_read_ecc, read_ecc),
    Timed("read a vote of 3", MANY, three_rows, work_read_vote, read_vote),
    Timed("read a vote of 8", MANY, as_it_is, work_read_vote, read_vote),
    Timed("write raw", MANY, blank_row, work_write_raw, write_raw),
    Timed("write ECC", MANY, blank_row, work_write_ecc, write_ecc),
    Timed("advance a lock", MANY, as_it_is, work_advance, advance),
    Timed("show a lock", MANY, as_it_is, work_show, show),
    Timed("enter a key", MANY, as_it_is, work_enter_key, enter_key),
    Timed("run a job of 512", ONCE, blank_rows, work_run_job, run_job),
    Timed("rehearse 2,700 pulses", ONCE, blank_rows, work_rehearse, rehearse),
    Timed("take a job in a chunk", MANY, as_it_is, work_take_chunk, take_chunk),
    Timed("take 100 bytes singly", MANY, head_taken, work_take_bytes, take_bytes),
    Timed("end a job of 512", ONCE, all_taken, work_end_job, end_job),
    Timed("make a job of 512", MANY, burnt_further, work_make_job, make_job),
    Timed("make a job of none", MANY, equal_images, work_make_job, make_job),
    Timed("read a job of 512", MANY, as_it_is, work_read_job, read_job),
    Timed("repair 64 rows", ONCE, worn_page, work_repair, repair),
    Timed("repair 3,904 rows", ONCE, worn_board, work_repair, repair),
    Timed("read a card", MANY, card_burnt, work_read_card, read_card),
    Timed("write a card", MANY, as_it_is, work_write_card, write_card),
    Timed("bits burnt in a page", MANY, as_it_is, work_bits_burnt, bits_burnt),
];

/// Calls that take the state as a read does, or take it and give it back as a write does, and do nothing else.
const SHAPES: [(&str, Library); 2] = [
    ("the shape of a read", work_read_shape),
    ("the shape of a write", work_write_shape),
];

/// What a call needs of the work, and the library's side of it.
type Side = (fn(&mut Work), Library);

/// What is held to what: its name, how often it can be made on one work, and both.
const HELD: [(&str, u32, Side, Side); 2] = [
    (
        "last 100 bytes to first",
        MANY,
        (most_taken, work_take_bytes),
        (head_taken, work_take_bytes),
    ),
    (
        "chunk and end to a job",
        ONCE,
        (blank_rows, work_send_job),
        (blank_rows, work_run_job),
    ),
];

/// One call for each page, so that each advance advances.
const MANY: u32 = 64;
/// A job is burnt once, and then needs a fresh board, and so does a repair pass.
const ONCE: u32 = 1;
/// How often two sides take turns.
const TURNS: u32 = 10;

fn as_it_is(_: &mut Work) {}

fn by_bootloader(work: &mut Work) {
    work.caller = BOOTLOADER;
}

fn keyed_row(work: &mut Work) {
    work.row = KEYED_ROW;
}

fn three_rows(work: &mut Work) {
    work.count = 3;
}

fn blank_row(work: &mut Work) {
    work.row = 8;
}

fn blank_rows(work: &mut Work) {
    work.rows.fill(0);
}

/// Nanoseconds of one call: the best of many blocks of them.
fn best(call: impl Fn(&mut Work), work: &Work, calls: u32) -> f64 {
    let batches = if calls == ONCE { 8 } else { 40 };
    let block = || {
        let mut took = Duration::ZERO;
        for _ in 0..batches {
            let mut work = work.clone();
            let before = Instant::now();
            for page in 0..calls {
                work.page = page;
                call(black_box(&mut work));
            }
            took += before.elapsed();
            black_box(&work);
        }
        took.as_nanos() as f64 / f64::from(calls * batches)
    };
    (0..60).map(|_| block()).fold(f64::MAX, f64::min)
}

fn library_time(call: Library, work: &Work, calls: u32) -> f64 {
    best(|work| unsafe { black_box(call)(work) }, work, calls) - empty_time(work, calls)
}

fn plain_time(call: Plain, work: &Work, calls: u32) -> f64 {
    best(|work| black_box(call)(work), work, calls) - empty_time(work, calls)
}

/// What the timing itself takes, which is no part of a call.
fn empty_time(work: &Work, calls: u32) -> f64 {
    best(as_it_is, work, calls)
}

/// The times of two sides, taken by turns, so that a machine that slows down slows both.
fn side_times(board: &Work, sides: [Side; 2], calls: u32) -> [f64; 2] {
    let time = |(prepare, call): Side| {
        let mut work = board.clone();
        prepare(&mut work);
        library_time(call, &work, calls)
    };
    let turns = (0..TURNS).map(|_| sides.map(time));
    turns.fold([f64::MAX; 2], |[this, that], turn| {
        [this.min(turn[0]), that.min(turn[1])]
    })
}

/// Whether both sides do the same, and are done.
fn same(library: Library, plain: Plain, work: &Work) -> bool {
    let (mut ours, mut theirs) = (work.clone(), work.clone());
    unsafe { library(&mut ours) };
    plain(&mut theirs);
    ours == theirs && ours.answer.number == 0
}

fn main() -> ExitCode {
    let board = board();
    println!("call                    library ns    plain ns    ratio");
    for Timed(name, calls, prepare, library, plain) in &CALLS {
        let mut work = board.clone();
        prepare(&mut work);
        if !same(*library, *plain, &work) {
            println!("timings: {name} is refused, or its two sides differ");
            return ExitCode::FAILURE;
        }
        let ours = library_time(*library, &work, *calls);
        let theirs = plain_time(*plain, &work, *calls);
        println!("{name:<22} {ours:>11.1} {theirs:>11.1} {:>8.2}", ours / theirs);
    }
    for (name, shape) in SHAPES {
        println!("{name:<22} {:>11.1}", library_time(shape, &board, MANY));
    }
    print_held(&board);
    ExitCode::SUCCESS
}

fn print_held(board: &Work) {
    println!("\nover the lead              this ns     that ns    ratio");
    for (name, calls, this, that) in HELD {
        let [this, that] = side_times(board, [this, that], calls);
        println!("{name:<23} {this:>10.1} {that:>11.1} {:>8.2}", this / that);
    }
}
