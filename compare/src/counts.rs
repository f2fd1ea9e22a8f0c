//! How often each call gave each number, as a table.

use crate::call::{Kind, CALLS};

/// The numbers run from 0 to 17.
const NUMBERS: usize = 18;

/// The numbers that a call can give to those who make it: none, where they do not make it at all.
pub type CanGive = fn(&Kind) -> Vec<u32>;

/// What a call can give to anyone.
pub fn to_anyone(kind: &Kind) -> Vec<u32> {
    kind.numbers.to_vec()
}

#[derive(Default)]
pub struct Counts {
    given: [[u64; NUMBERS]; CALLS.len()],
    pub calls: u64,
}

impl Counts {
    pub fn note(&mut self, call: usize, number: u32) {
        self.calls += 1;
        if let Some(count) = self.given[call].get_mut(number as usize) {
            *count += 1;
        }
    }

    /// The first call and number that it can give but never gave.
    pub fn missing(&self, can_give: CanGive) -> Option<(&'static str, u32)> {
        for (counts, kind) in self.given.iter().zip(CALLS) {
            for number in can_give(kind) {
                if counts[number as usize] == 0 {
                    return Some((kind.name, number));
                }
            }
        }
        None
    }

    pub fn print(&self, can_give: CanGive) {
        let heads: Vec<String> = (0..NUMBERS).map(|number| format!("{number:>8}")).collect();
        println!("{:<11}{}{:>10}", "call", heads.concat(), "all");
        for (counts, kind) in self.given.iter().zip(CALLS) {
            let numbers = can_give(kind);
            if numbers.is_empty() {
                continue;
            }
            let cells: Vec<String> = (0..NUMBERS)
                .map(|number| match numbers.contains(&(number as u32)) {
                    true => format!("{:>8}", counts[number]),
                    false => format!("{:>8}", "-"),
                })
                .collect();
            println!("{:<11}{}{:>10}", kind.name, cells.concat(), counts.iter().sum::<u64>());
        }
    }
}
