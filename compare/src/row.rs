//! A row's 24 bits: one of them, those of one row in another, and votes over rows.

use crate::fault::Fault;

pub fn bit(word: u32, place: u32) -> bool {
    (word >> place) & 1 == 1
}

/// Whether every bit of the one stands in the other.
pub fn within(bits: u32, row: u32) -> bool {
    (0..24).all(|place| !bit(bits, place) || bit(row, place))
}

/// How many bits of the new row the old one lacks.
pub fn newly_set(old: u32, new: u32) -> u32 {
    (0..24).filter(|place| bit(new, *place) && !bit(old, *place)).count() as u32
}

/// Each bit judged over the rows taken: two of three, three of eight.
pub fn vote(fault: Option<Fault>, taken: &[u32]) -> u32 {
    let enough = match taken.len() {
        3 if fault == Some(Fault::VoteOfThree) => 3,
        3 => 2,
        _ if fault == Some(Fault::VoteOfEight) => 4,
        _ => 3,
    };
    let set = |place: &u32| taken.iter().filter(|row| bit(**row, *place)).count() >= enough;
    (0..24).filter(set).map(|place| 1 << place).sum()
}
