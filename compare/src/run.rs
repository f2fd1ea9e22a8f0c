//! The mix of calls: one image after another, each met by some hundred calls, with cut jobs, jobs sent in chunks, jobs made of two images,
//! jobs read by their entries, repair passes and cards in between.

use crate::arguments;
use crate::bench::{Bench, Difference};
use crate::call::{Call, Chip};
use crate::cards;
use crate::code::Codes;
use crate::cuttings;
use crate::form::Entry;
use crate::images::{too_large, Image};
use crate::jobfiles;
use crate::leads;
use crate::locks::{key_page, owner};
use crate::makings;
use crate::random::Random;
use crate::readings;
use crate::recount::tallies_are_right;
use crate::repairs;
use crate::sequences;
use crate::shape::{State, ROWS};
use crate::spoilt;
use crate::states;

/// How many calls one image is met by.
const EPISODE: u64 = 160;

/// Makes so many calls. The images and arguments depend on the seed alone, as long as nothing differs.
pub fn run(bench: &mut Bench, codes: &Codes, sound: &dyn Chip, calls: u64, seed: u64) -> Result<(), Difference> {
    let mut random = Random::new(seed);
    while bench.counts.calls < calls {
        let room = calls - bench.counts.calls;
        match random.below(30) {
            0..=5 if room >= sequences::MOST_CALLS => sequences::cut(&mut random, bench, codes)?,
            6..=9 if room >= cuttings::MOST_CALLS => cuttings::send(&mut random, bench, codes)?,
            10..=13 if room >= leads::MOST_CALLS => leads::any(&mut random, bench, codes)?,
            14..=17 if room >= makings::MOST_CALLS => makings::make(&mut random, bench, codes)?,
            18 | 19 if room >= readings::MOST_CALLS => readings::read(&mut random, bench, codes)?,
            20..=24 if room >= repairs::MOST_CALLS => repairs::repair(&mut random, bench, codes)?,
            25..=27 if room >= cards::MOST_CALLS => cards::card_and_job(&mut random, bench, codes)?,
            _ => episode(&mut random, bench, codes, sound, room.min(EPISODE))?,
        }
    }
    Ok(())
}

/// What an episode's state and rows come from.
#[derive(Clone, Copy, PartialEq)]
enum Made {
    /// A state drawn, and rows that are changed between calls.
    ByHand,
    /// No state but what reset and the calls make, and such rows.
    Natural,
    /// No state but what a done reset and the calls make, and no row changed but by calls: then each tally equals a recount.
    ByCalls,
}

/// One image and its calls.
fn episode(
    random: &mut Random,
    bench: &mut Bench,
    codes: &Codes,
    sound: &dyn Chip,
    calls: u64,
) -> Result<(), Difference> {
    let made = random.pick(&[Made::ByHand, Made::ByHand, Made::ByHand, Made::Natural, Made::ByCalls]);
    let whole = random.coin() || made == Made::ByCalls;
    let image = Image::new(random, codes, whole);
    bench.load(&image.rows);
    bench.state = states::by_hand(random, &image);
    if made == Made::Natural {
        bench.state = State::blank();
    }
    for turn in 0..calls {
        let call = match made != Made::ByHand && turn == 0 {
            true => Call::Reset {},
            false => draw(random, bench, &image, codes, sound, made),
        };
        stir(random, bench, &image, codes, made, &call);
        let length = match call.takes_rows() && (turn > 0 || made != Made::ByCalls) {
            true => arguments::length(random),
            false => ROWS,
        };
        bench.call_with(&call, length)?;
        if made == Made::ByCalls {
            tallies_are_right(bench, &call.to_string())?;
        }
    }
    Ok(())
}

/// Before a call that names rows, or reads a card: now and then other entries in them, and other settings of a page that one goes by.
fn stir(random: &mut Random, bench: &mut Bench, image: &Image, codes: &Codes, made: Made, call: &Call) {
    if let (Call::ReadCard {}, false) = (call, made == Made::ByCalls) {
        cards::stir_page(random, bench, image, codes, made == Made::ByHand);
    }
    let Some((first, count)) = call.rows().filter(|(first, _)| *first < ROWS as u32) else {
        return;
    };
    if made == Made::ByCalls {
        return;
    }
    let share = random.below(4);
    for row in first..(first + count).min(ROWS as u32) {
        if random.below(4) < share {
            bench.put(row, image.entry(random, codes));
        }
    }
    let row = first + random.below(count.max(1));
    if random.once_in(48) && row < ROWS as u32 {
        bench.put(row, too_large(random));
    }
    if made == Made::ByHand && random.once_in(3) && row < ROWS as u32 {
        let page = random.pick(&[owner(row), key_page(None, row)]);
        states::change_page(random, image, &mut bench.state, page);
    }
}

/// Draws a call; those that cost most come up least. A call that is missing here is one that the counts find missing.
fn draw(random: &mut Random, bench: &mut Bench, image: &Image, codes: &Codes, sound: &dyn Chip, made: Made) -> Call {
    let caller = arguments::caller(random);
    let row = arguments::row(random, image);
    match random.below(103) {
        0 | 1 => Call::Reset {},
        2..=15 => Call::ReadRaw { caller, row },
        16..=33 => Call::ReadEcc { caller, row },
        34..=47 => Call::ReadVote {
            caller,
            row: arguments::group(random, image),
            count: arguments::count(random),
        },
        48..=60 => Call::WriteRaw {
            caller,
            row,
            value: arguments::raw_value(random),
        },
        61..=77 => Call::WriteEcc {
            caller,
            row,
            value: arguments::ecc_value(random, image),
        },
        78..=82 => Call::Advance {
            caller,
            domain: arguments::domain(random),
            page: arguments::page(random, image),
            level: arguments::level(random),
        },
        83..=86 => Call::Show {
            caller,
            domain: arguments::domain(random),
            page: arguments::page(random, image),
        },
        87..=90 => Call::EnterKey {
            caller,
            key: arguments::key(random, image),
        },
        91 => repair(random, image),
        100 | 101 => Call::ReadCard {},
        102 => write_card(random),
        _ => job(random, bench, image, codes, sound, made),
    }
}

/// Draws a repair pass over rows as they stand.
fn repair(random: &mut Random, image: &Image) -> Call {
    let list = repairs::list(random, image);
    let report = repairs::report(random, list.len());
    Call::Repair { report, list }
}

/// Draws a card that is asked for.
fn write_card(random: &mut Random) -> Call {
    let (card, area) = (cards::asked(random), cards::area(random));
    Call::WriteCard {
        version: card.version,
        width: card.width,
        height: card.height,
        line: card.line,
        area,
    }
}

/// Before a job: now and then other entries in the rows that it names.
fn stir_job(random: &mut Random, bench: &mut Bench, image: &Image, codes: &Codes, entries: &[Entry]) {
    let share = if entries.len() > 12 { 0 } else { random.below(4) };
    for entry in entries {
        if random.below(6) < share {
            bench.put(entry.row, image.entry(random, codes));
        } else if share == 3 && random.once_in(12) {
            bench.put(entry.row, too_large(random));
        }
    }
}

/// Draws a job or a rehearsal.
fn job(random: &mut Random, bench: &mut Bench, image: &Image, codes: &Codes, sound: &dyn Chip, made: Made) -> Call {
    let draft = jobfiles::draft(random, image);
    if made != Made::ByCalls {
        stir_job(random, bench, image, codes, &draft.entries);
    }
    let job = spoilt::file(random, &draft);
    if random.once_in(3) {
        return Call::RunJob { job };
    }
    let mut rows = bench.rows()[..ROWS].to_vec();
    let uncut = Call::RunJob { job: job.clone() };
    let whole = sound.make(&uncut, &mut rows, bench.state).answer.pulses;
    let limit = sequences::limit(random, whole);
    Call::Rehearse { limit, job }
}
