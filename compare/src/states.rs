//! States made by hand: drawn, with levels above 2, indexes above 7, keys whole and damaged, entered and not; and set page by
//! page for the calls that go through every choice.

use crate::images::Image;
use crate::random::Random;
use crate::recount::recount;
use crate::shape::{Key, State, PAGES, PAGE_BITS};

fn level(random: &mut Random) -> u8 {
    random.pick(&[0, 0, 0, 0, 0, 0, 1, 1, 2, 3, 4, 5, 128, 255])
}

fn index(random: &mut Random) -> u8 {
    random.pick(&[0, 0, 0, 0, 0, 0, 0, 1, 2, 3, 4, 5, 6, 7, 8, 9, 14, 255])
}

fn key(random: &mut Random, image: &Image) -> Key {
    let mut words = random.pick(&image.keys);
    if random.once_in(6) {
        words[random.below(8) as usize] ^= 1 << random.below(16);
    }
    Key {
        words,
        valid: !random.once_in(3),
        whole: !random.once_in(5),
    }
}

/// Tallies at and around the most that a page can have, and around none.
pub const TALLIES: [u16; 9] = [0, 1, 700, 1535, 1536, 1537, 1560, 65512, 65535];

pub fn tally(random: &mut Random) -> u16 {
    match random.below(4) {
        0 => random.below(PAGE_BITS) as u16,
        1 => random.number() as u16,
        2 => PAGE_BITS as u16 - random.below(24) as u16,
        _ => random.pick(&TALLIES),
    }
}

/// One page's locks, key settings and tally. Every field is named, so that the compiler asks here for a new one.
fn set_page(random: &mut Random, state: &mut State, page: usize) {
    let State {
        secure,
        nonsecure,
        bootloader,
        writekey,
        readkey,
        nokey,
        keys: _,
        entered: _,
        tallies,
    } = state;
    secure[page] = level(random);
    nonsecure[page] = level(random);
    bootloader[page] = level(random);
    writekey[page] = index(random);
    readkey[page] = index(random);
    nokey[page] = random.coin();
    tallies[page] = tally(random);
}

const ENTERED: [u16; 8] = [0x1234; 8];
const OTHER: [u16; 8] = [0x5678; 8];

/// Keys 1 and 2 are valid, and the first of them is entered or none is.
pub fn with_keys(entered: bool) -> State {
    let mut state = State::blank();
    for (key, words) in state.keys.iter_mut().zip([ENTERED, OTHER]) {
        *key = Key {
            words,
            valid: true,
            whole: true,
        };
    }
    if entered {
        state.entered = ENTERED;
    }
    state
}

/// Sets a page's write key, read key and no-key state.
pub fn set_keys(state: &mut State, page: usize, (write, read, no_key): (u8, u8, bool)) {
    state.writekey[page] = write;
    state.readkey[page] = read;
    state.nokey[page] = no_key;
}

/// Sets a page's levels: Secure, Non-secure, bootloader.
pub fn set_levels(state: &mut State, page: usize, [secure, nonsecure, bootloader]: [u8; 3]) {
    state.secure[page] = secure;
    state.nonsecure[page] = nonsecure;
    state.bootloader[page] = bootloader;
}

/// A whole state drawn, with few pages locked or many, and with the image's own tallies on the others or with any.
pub fn by_hand(random: &mut Random, image: &Image) -> State {
    let mut state = State::blank();
    state.tallies = match random.coin() {
        true => recount(&image.rows),
        false => [0; PAGES].map(|_| tally(random)),
    };
    let share = random.pick(&[1, 1, 2, 4, 8]);
    for page in 0..64 {
        if random.below(8) < share {
            set_page(random, &mut state, page);
        }
    }
    for place in &mut state.keys {
        *place = key(random, image);
    }
    state.entered = random.pick(&image.keys);
    state
}

/// Sets one page's locks, key settings and tally anew, and now and then the key behind them.
pub fn change_page(random: &mut Random, image: &Image, state: &mut State, page: usize) {
    set_page(random, state, page);
    if random.coin() {
        state.entered = random.pick(&image.keys);
    }
    if random.coin() {
        state.keys[random.below(6) as usize] = key(random, image);
    }
}
