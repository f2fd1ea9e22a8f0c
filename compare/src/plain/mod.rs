//! For timings alone: the same rules written plainly in Rust, with references, for the library's times to be measured
//! against. No part of the model or of the comparison uses them, and they are no third reading of document 01: all that
//! is asked of them is that they answer as the model does, and `tests/plain.rs` sees to it.
//!
//! A state is lent, and changed in place. A refusal is the `Err` of a `Result`, so that each ladder is a row of tests.

use crate::shape::Answer;

pub mod access;
pub mod card;
pub mod chip;
pub mod jobs;
pub mod lead;
pub mod make;
pub mod reader;
pub mod repair;
pub mod row;
pub mod tallies;

/// The number of a refusal.
pub type Refusal = u32;

/// Refuses with a number where it is so.
pub fn refuse_if(it_is_so: bool, number: Refusal) -> Result<(), Refusal> {
    match it_is_so {
        true => Err(number),
        false => Ok(()),
    }
}

/// What a call answers, done or refused.
pub fn answer(result: Result<Answer, Refusal>) -> Answer {
    result.unwrap_or_else(Answer::refused)
}
