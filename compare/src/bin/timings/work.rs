//! What the timed calls are made on, and the calls on both sides.

use compare::plain::{access, card, chip, jobs, lead, make, reader, repair as pass, row, tallies};
use compare::random::Random;
use compare::shape::{Answer, Card, Note, State, AREA, LARGEST, ROWS, SECURE};

const ENTRIES: usize = 512;
const JOB: usize = 7 + 6 * ENTRIES;
/// The most rows that a list can have, and the rows of a page.
const LISTED: usize = 0xf40;
const PAGE: usize = 64;
/// The page that key 1 guards.
const KEYED_PAGE: usize = 20;
/// A row of that page that the job burns.
pub const KEYED_ROW: u32 = 1281;
/// How many bytes are taken one by one.
const SINGLE: usize = 100;
const FIRST_KEY_ROW: usize = 0xf48;
const FIRST_VALID_ROW: usize = 0xf79;
const VOTED_1: u32 = 0x010101;

/// All that a call takes, and what it answered: the same as `work` in compare/work.c.
#[repr(C, align(8))]
#[derive(Clone, PartialEq)]
pub struct Work {
    pub rows: [u32; ROWS],
    pub wanted: [u32; ROWS],
    pub list: [u32; LISTED],
    pub report: [u32; LISTED],
    pub job: [u8; JOB],
    pub out: [u8; JOB],
    pub key: [u8; 16],
    pub area: [u8; AREA],
    pub note: Note,
    pub noted: Note,
    pub caller: u32,
    pub row: u32,
    pub count: u32,
    pub value: u32,
    pub domain: u32,
    pub page: u32,
    pub level: u32,
    pub limit: u32,
    pub listed: u64,
    pub state: State,
    pub answer: Answer,
    pub card: Card,
    pub asked: Card,
}

extern "C" {
    pub fn work_read_shape(work: &mut Work);
    pub fn work_write_shape(work: &mut Work);
    pub fn work_send_job(work: &mut Work);
}

/// Makes the two sides of each call: the library's is a function of compare/work.c.
macro_rules! sides {
    ($($library:ident, $plain:ident($work:ident) => $answer:expr;)*) => {
        extern "C" {
            $(pub fn $library(work: &mut Work);)*
        }

        $(pub fn $plain($work: &mut Work) {
            $work.answer = $answer
        })*
    };
}

sides! {
    work_reset, reset(w) => chip::reset(&w.rows, &mut w.state);
    work_read_raw, read_raw(w) => access::read_raw(&w.rows, &w.state, w.caller, w.row);
    work_read_ecc, read_ecc(w) => access::read_ecc(&w.rows, &w.state, w.caller, w.row);
    work_read_vote, read_vote(w) => access::read_vote(&w.rows, &w.state, w.caller, w.row, w.count);
    work_write_raw, write_raw(w) => access::write_raw(&mut w.rows, &mut w.state, w.caller, w.row, w.value);
    work_write_ecc, write_ecc(w) => access::write_ecc(&mut w.rows, &mut w.state, w.caller, w.row, w.value);
    work_advance, advance(w) => chip::advance(&mut w.state, w.caller, w.domain, w.page, w.level);
    work_show, show(w) => chip::show(&w.state, w.caller, w.domain, w.page);
    work_enter_key, enter_key(w) => chip::enter_key(&mut w.state, w.caller, &w.key);
    work_run_job, run_job(w) => jobs::run_job(&mut w.rows, &mut w.state, &w.job);
    work_rehearse, rehearse(w) => jobs::rehearse(&mut w.rows, &mut w.state, &w.job, w.limit);
    work_take_chunk, take_chunk(w) => take_rest(w);
    work_take_bytes, take_bytes(w) => take_singly(w);
    work_end_job, end_job(w) => lead::end_job(&mut w.rows, &mut w.state, &w.area, &w.note);
    work_make_job, make_job(w) => make::make_job(&w.rows, &w.wanted, &mut w.out);
    work_read_job, read_job(w) => read_all(&w.job);
    work_repair, repair(w) => repair_listed(w);
    work_read_card, read_card(w) => show_card(w);
    work_write_card, write_card(w) => card::write_card(&mut w.out, &w.asked);
    work_bits_burnt, bits_burnt(w) => tallies::count_page(&w.rows, w.page);
}

/// What is left of the job, in one chunk.
fn take_rest(work: &mut Work) -> Answer {
    work.noted = work.note;
    let counted = work.note.counted as usize;
    lead::take_chunk(&mut work.area, &mut work.noted, &work.job[counted..])
}

/// The next bytes of the job, one by one.
fn take_singly(work: &mut Work) -> Answer {
    work.noted = work.note;
    let mut answer = Answer::default();
    for _ in 0..SINGLE {
        let byte = work.noted.counted as usize;
        answer = lead::take_chunk(&mut work.area, &mut work.noted, &work.job[byte..=byte]);
    }
    answer
}

/// Every entry of the job: how many there are, and the sum of their values.
fn read_all(job: &[u8]) -> Answer {
    let mut read = Answer::default();
    let mut next = reader::next_entry(job, 7);
    while next.end == 0 {
        if next.number != 0 {
            return Answer::refused(next.number);
        }
        read.place += 1;
        read.value = read.value.wrapping_add(next.value);
        next = reader::next_entry(job, next.at);
    }
    read
}

/// The first rows of the list.
fn repair_listed(work: &mut Work) -> Answer {
    let list = &work.list[..work.listed as usize];
    pass::repair(&mut work.rows, &mut work.state, list, &mut work.report)
}

/// The card of the rows.
fn show_card(work: &mut Work) -> Answer {
    work.card = card::read_card(&work.rows, &work.state);
    Answer::refused(work.card.number)
}

/// The card that is asked for stands in its rows.
pub fn card_burnt(work: &mut Work) {
    let Card {
        version,
        width,
        height,
        line,
        ..
    } = work.asked;
    let values = [0x5053, 0x004c, version, width, height, line];
    for (row, value) in work.rows[0x0c0..].iter_mut().zip(values) {
        *row = row::code(value as u16);
    }
}

/// Rows of every sort from a row on: a 1 lost in either polarity, clean in either, a 1 too many, a flag bit worn, and damaged.
fn worn_from(work: &mut Work, first: usize, count: usize) {
    for (place, list) in work.list.iter_mut().enumerate().take(count) {
        *list = (first + place) as u32;
        let plain = row::code((place * 129) as u16);
        let lost = plain & plain.wrapping_sub(1);
        let more = plain | (plain + 1);
        work.rows[first + place] = match place % 8 {
            0 | 1 => lost,
            2 => more ^ LARGEST,
            3 => plain,
            4 => plain ^ LARGEST,
            5 => more,
            6 => plain ^ 0x40_0000,
            _ => plain ^ 3,
        };
    }
    work.listed = count as u64;
}

/// A page of worn rows, all of them listed.
pub fn worn_page(work: &mut Work) {
    worn_from(work, 9 * PAGE, PAGE);
}

/// Worn rows wherever a list can have one, all of them listed.
pub fn worn_board(work: &mut Work) {
    worn_from(work, 0, LISTED);
}

/// Something is burnt in every row, and the wanted rows are the same.
pub fn equal_images(work: &mut Work) {
    let mut random = Random::new(1);
    work.rows = [0; ROWS].map(|_| 1 + random.below(LARGEST));
    work.wanted = work.rows;
}

/// Something is burnt in every row, and in every seventh of the wanted ones more.
pub fn burnt_further(work: &mut Work) {
    equal_images(work);
    let rows = work.rows.iter_mut().zip(&mut work.wanted).step_by(7);
    for (present, wanted) in rows.take(ENTRIES) {
        *present &= LARGEST ^ 0x80;
        *wanted |= 0x80;
    }
}

/// So many bytes of the job are taken before.
fn taken(work: &mut Work, count: usize) {
    work.note = Note::default();
    lead::take_chunk(&mut work.area, &mut work.note, &work.job[..count]);
}

/// The head is taken: the first entry's bytes come next.
pub fn head_taken(work: &mut Work) {
    taken(work, 7);
}

/// All is taken but the last bytes.
pub fn most_taken(work: &mut Work) {
    taken(work, JOB - SINGLE);
}

/// The whole job is taken, and its rows are blank.
pub fn all_taken(work: &mut Work) {
    taken(work, JOB);
    work.rows.fill(0);
}

/// Every seventh row, ECC, with values that spread over the 16 bits.
fn job() -> [u8; JOB] {
    let mut job = [0; JOB];
    job[..7].copy_from_slice(&[0x4f, 0x54, 0x4a, 1, 0, 0, 2]);
    for (i, entry) in job[7..].chunks_exact_mut(6).enumerate() {
        entry[..2].copy_from_slice(&(7 * i as u16).to_le_bytes());
        entry[3..5].copy_from_slice(&(129 * i as u32).to_le_bytes()[..2]);
    }
    job
}

/// The board that the calls are made on: key 1 burnt and valid, a page registered to it, the key entered, the job burnt.
pub fn board() -> Work {
    let mut work = Work {
        rows: [0; ROWS],
        wanted: [0; ROWS],
        list: [0; LISTED],
        report: [0; LISTED],
        job: job(),
        out: [0; JOB],
        key: *b"sixteen byte key",
        area: [0; AREA],
        note: Note::default(),
        noted: Note::default(),
        caller: SECURE,
        row: 7,
        count: 8,
        value: 0x5053,
        domain: 0,
        page: 9,
        level: 1,
        limit: 2700,
        listed: 0,
        state: State::blank(),
        answer: Answer::default(),
        card: Card::default(),
        asked: Card {
            number: 0,
            version: 2,
            width: 320,
            height: 240,
            line: 1024,
        },
    };
    for (i, bytes) in work.key.chunks_exact(2).enumerate() {
        work.rows[FIRST_KEY_ROW + i] = row::code(u16::from_le_bytes([bytes[0], bytes[1]]));
    }
    work.rows[FIRST_VALID_ROW] = VOTED_1;
    work.rows[0xf80 + 2 * KEYED_PAGE] = VOTED_1;
    reset(&mut work);
    enter_key(&mut work);
    run_job(&mut work);
    work
}

/// Six keys, valid and whole, with the lowest set bit of each of their rows worn away.
pub fn burn_worn_keys(work: &mut Work) {
    for i in 0..48 {
        let burnt = row::code(0x1234 + i as u16);
        work.rows[FIRST_KEY_ROW + i] = burnt & (burnt - 1);
    }
    work.rows[FIRST_VALID_ROW..FIRST_VALID_ROW + 6].fill(VOTED_1);
}
