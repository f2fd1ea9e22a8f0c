//! Pairs of chips that agree, drawn: a chip, and a copy of it that differs in all that a plug-in is not to learn.

use crate::agreement::{disagreements, known, unlike_rows, Side};
use crate::call::{Call, Chip};
use crate::code::Codes;
use crate::images::{too_large, Image};
use crate::keys::{hidden, key_level};
use crate::locks::owner;
use crate::random::Random;
use crate::shape::{State, LARGEST, LOCK_ROWS, PAGES, ROWS};
use crate::states;
use crate::two_chips::Board;
use crate::unlike::{other_ground, oversized};

/// Numbers that count as level 2, and as key index 7.
const LEVELS_OF_2: [u8; 5] = [2, 3, 4, 128, 255];
const INDEXES_OF_7: [u8; 5] = [7, 8, 9, 14, 255];

pub struct Pair {
    /// What the first chip was made of, for the arguments of calls.
    pub image: Image,
    pub boards: [Board; 2],
    /// Rows that differ, by kind: hidden, locked, oversized, and those of a page whose key level has another ground. No list is empty.
    pub unlike: Vec<Vec<u32>>,
    /// Rows that a plug-in knows where it does not know the one before, or the other way round.
    pub borders: Vec<u32>,
}

impl Pair {
    pub fn draw(random: &mut Random, codes: &Codes, sound: &dyn Chip) -> Pair {
        let natural = random.once_in(4);
        let sizes_right = natural || random.coin();
        let image = Image::new(random, codes, sizes_right);
        let mut first = Board {
            rows: image.rows.clone(),
            ..Board::blank()
        };
        first.state = match natural {
            true => latched(random, sound, &image),
            false => states::by_hand(random, &image),
        };
        let mut second = first.clone();
        change_numbers(random, &mut second.state);
        change_keys(random, &image, &first.state, &mut second.state);
        change_rows(random, codes, &image, &mut second);
        Pair::of(image, [first, second])
    }

    fn of(image: Image, boards: [Board; 2]) -> Pair {
        let [one, other] = [boards[0].side(), boards[1].side()];
        let rows: Vec<u32> = unlike_rows(one, other).collect();
        let (hidden, locked) = rows.iter().partition(|row| hidden(one.state, **row));
        let sizes = rows.iter().copied().filter(|row| oversized(one, other, *row));
        let of_pages = (0..LOCK_ROWS).filter(|row| other_ground(one.state, other.state, owner(*row)));
        let lists = [hidden, locked, sizes.collect(), of_pages.collect()];
        let differs = |row: &u32| known(one.state, *row) != known(one.state, *row - 1);
        let borders = (1..ROWS as u32).filter(differs).collect();
        Pair {
            unlike: lists.into_iter().filter(|list: &Vec<u32>| !list.is_empty()).collect(),
            borders,
            image,
            boards,
        }
    }
}

/// The state that a reset makes of the image, and one of its keys entered.
fn latched(random: &mut Random, sound: &dyn Chip, image: &Image) -> State {
    let mut rows = image.rows[..ROWS].to_vec();
    let mut state = sound.make(&Call::Reset {}, &mut rows, State::blank()).state;
    state.entered = random.pick(&image.keys);
    state
}

/// Other tallies, and other numbers for levels and indexes that count the same. Every field is named, so that the compiler asks here for
/// a new one: is it a clause of agreement, or may it differ?
fn change_numbers(random: &mut Random, state: &mut State) {
    let State {
        secure,
        nonsecure,
        bootloader,
        writekey,
        readkey,
        nokey: _,
        keys: _,
        entered: _,
        tallies,
    } = state;
    for level in secure.iter_mut().chain(nonsecure).chain(bootloader) {
        if *level >= 2 {
            *level = random.pick(&LEVELS_OF_2);
        }
    }
    for index in writekey.iter_mut().chain(readkey) {
        if *index >= 7 {
            *index = random.pick(&INDEXES_OF_7);
        }
    }
    for tally in tallies {
        if random.coin() {
            *tally = states::tally(random);
        }
    }
}

/// Makes a change, and takes it back where the chips would no longer agree.
fn attempt(first: &State, second: &mut State, change: impl FnOnce(&mut State)) {
    let before = *second;
    change(second);
    let of = |state| Side { rows: &[], state };
    if !disagreements(of(first), of(second)).is_empty() {
        *second = before;
    }
}

/// Another entered key, other keys, other no-key states.
fn change_keys(random: &mut Random, image: &Image, first: &State, second: &mut State) {
    let words = any_words(random);
    match random.below(5) {
        0 => {}
        1 | 2 => attempt(first, second, |state| enter_anew(state, words)),
        _ => attempt(first, second, |state| enter_matching(state, words)),
    }
    for key in 0..6 {
        if random.coin() {
            attempt(first, second, |state| state.keys[key].whole ^= true);
        }
        if random.once_in(4) {
            let words = key_words(random, image);
            attempt(first, second, |state| state.keys[key].words = words);
        }
    }
    for page in 0..PAGES {
        if random.coin() {
            attempt(first, second, |state| state.nokey[page] ^= true);
        }
    }
}

/// Another entered key, and the same in every key that equalled it: so a match stays a match.
fn enter_matching(state: &mut State, words: [u16; 8]) {
    for key in &mut state.keys {
        if key.words == state.entered {
            key.words = words;
        }
    }
    state.entered = words;
}

/// Another entered key, and no-key states that give without a match what the page's key level was: so level 1 has another ground.
fn enter_anew(state: &mut State, words: [u16; 8]) {
    for page in 0..PAGES {
        state.nokey[page] = key_level(None, state, page) == 2;
    }
    state.entered = words;
}

/// One of the image's keys, or another.
fn key_words(random: &mut Random, image: &Image) -> [u16; 8] {
    match random.coin() {
        true => random.pick(&image.keys),
        false => any_words(random),
    }
}

fn any_words(random: &mut Random) -> [u16; 8] {
    [0; 8].map(|_| random.number() as u16)
}

/// Other entries in rows that a plug-in does not know, in all of them or in some, and past the rows.
fn change_rows(random: &mut Random, codes: &Codes, image: &Image, second: &mut Board) {
    let share = random.pick(&[1, 2, 4, 8]);
    for (row, entry) in (0..).zip(&mut second.rows[..ROWS]) {
        if !known(&second.state, row) && (*entry != 0 || random.below(8) < share) {
            *entry = another_entry(random, codes, image);
        }
    }
    for past in &mut second.rows[ROWS..] {
        *past = random.number();
    }
}

fn another_entry(random: &mut Random, codes: &Codes, image: &Image) -> u32 {
    match random.below(8) {
        0 => 0,
        1 => too_large(random),
        2 | 3 => random.below(LARGEST + 1),
        _ => image.entry(random, codes),
    }
}
