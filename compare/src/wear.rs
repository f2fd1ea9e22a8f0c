//! What an ECC read says of a row beside its value: its condition, its polarity, and whether bits 23 and 22 disagreed
//! (request 2026-03). Every other answer says plain and agreeing.

use crate::code::Near;
use crate::fault::Fault;
use crate::row::bit;
use crate::shape::{Answer, CLEAN, FLAG_WORN, FLAG_WORN_REPAIRED, INVERTED, PLAIN, REPAIRED};

/// Which polarity a row was in. One with disagreeing bits is read as it is, and so was plain.
fn polarity(row: u32) -> u32 {
    match (bit(row, 23), bit(row, 22)) {
        (true, true) => INVERTED,
        _ => PLAIN,
    }
}

/// Whether bits 23 and 22 of a row disagree.
pub fn disagree(row: u32) -> bool {
    bit(row, 23) != bit(row, 22)
}

/// A row with disagreeing bits that still decodes is not clean but flag worn, with the repaired bit if there was one.
fn condition(disagreed: bool, repaired: bool) -> u32 {
    match (disagreed, repaired) {
        (false, false) => CLEAN,
        (false, true) => REPAIRED,
        (true, false) => FLAG_WORN,
        (true, true) => FLAG_WORN_REPAIRED,
    }
}

/// What the read of a row says that decoded.
pub fn decoded(fault: Option<Fault>, row: u32, near: Near) -> Answer {
    let sound = Answer {
        condition: condition(disagree(row), near.repaired.is_some()),
        bit: u32::from(near.repaired.unwrap_or(0)),
        polarity: polarity(row),
        disagree: u32::from(disagree(row)),
        ..Answer::value(u32::from(near.value))
    };
    fault.map_or(sound, |fault| slipped(fault, row, sound))
}

/// A sound answer as a fault spoils it.
fn slipped(fault: Fault, row: u32, sound: Answer) -> Answer {
    let but_polarity = |set| Answer {
        polarity: u32::from(set),
        ..sound
    };
    let but_condition = |condition| Answer { condition, ..sound };
    match (fault, sound.condition) {
        (Fault::PolarityBit23, _) => but_polarity(bit(row, 23)),
        (Fault::PolarityBit22, _) => but_polarity(bit(row, 22)),
        (Fault::InvertedWorn, CLEAN) if sound.polarity == INVERTED => but_condition(FLAG_WORN),
        (Fault::WornClean, FLAG_WORN) => but_condition(CLEAN),
        (Fault::WornRepaired, FLAG_WORN_REPAIRED) => but_condition(REPAIRED),
        (Fault::WornLosesBit, FLAG_WORN_REPAIRED) => Answer {
            bit: 0,
            ..but_condition(FLAG_WORN)
        },
        _ => sound,
    }
}

/// What the read of a row says that does not decode: its number, and so plain and agreeing.
pub fn undecoded(fault: Option<Fault>, row: u32) -> Result<Answer, u32> {
    match fault {
        Some(Fault::RefusalPolarity) => Ok(Answer {
            polarity: polarity(row),
            ..Answer::refused(8)
        }),
        Some(Fault::RefusalDisagree) => Ok(Answer {
            disagree: u32::from(disagree(row)),
            ..Answer::refused(8)
        }),
        _ => Err(8),
    }
}

/// Any other answer about a row: as it is, unless it has the fault of telling the row's flag bits.
pub fn other(fault: Option<Fault>, telling: Fault, row: u32, answer: Answer) -> Answer {
    if fault != Some(telling) {
        return answer;
    }
    Answer {
        polarity: polarity(row),
        disagree: u32::from(disagree(row)),
        ..answer
    }
}
