//! The sizes of a card (request 2026-12): those that stand in rows, and those that are asked for. Each has faults of its own.

use crate::fault::Fault;
use crate::model::Model;
use crate::shape::Card;

/// The largest sizes.
const WIDEST: u32 = 320;
const HIGHEST: u32 = 240;
const LONGEST: u32 = 1024;

/// Where a card comes from: the rows, or whoever asks for its job.
#[derive(Clone, Copy, PartialEq)]
pub enum Source {
    Read,
    Asked,
}

impl Model {
    /// Width and height in their range.
    pub fn are_sides(&self, [width, height]: [u32; 2], from: Source) -> bool {
        let slips = |read, asked| self.has(if from == Source::Read { read } else { asked });
        let (mut widths, mut heights) = (1..=WIDEST, 1..=HIGHEST);
        if slips(Fault::CardWidth0, Fault::CardJobWidth0) {
            widths = 0..=WIDEST;
        } else if slips(Fault::CardWidth321, Fault::CardJobWidth321) {
            widths = 1..=WIDEST + 1;
        } else if slips(Fault::CardWidth319, Fault::CardJobWidth319) {
            widths = 1..=WIDEST - 1;
        } else if slips(Fault::CardHeight0, Fault::CardJobHeight0) {
            heights = 0..=HIGHEST;
        } else if slips(Fault::CardHeight241, Fault::CardJobHeight241) {
            heights = 1..=HIGHEST + 1;
        } else if slips(Fault::CardHeight239, Fault::CardJobHeight239) {
            heights = 1..=HIGHEST - 1;
        } else if slips(Fault::CardSidesSwapped, Fault::CardJobSidesSwapped) {
            (widths, heights) = (heights, widths);
        }
        let negative = match from {
            Source::Read => width >= 0x8000,
            Source::Asked => width >= 0x8000_0000,
        };
        let signed = negative && slips(Fault::CardSigned, Fault::CardJobSigned);
        (widths.contains(&width) || signed) && heights.contains(&height)
    }

    /// Every size in its range: of version 1 the line is not looked at.
    pub fn are_sizes(&self, card: &Card, from: Source) -> bool {
        let slips = |read, asked| self.has(if from == Source::Read { read } else { asked });
        let (mut least, mut longest) = (card.width, LONGEST);
        if slips(Fault::CardLineBelow, Fault::CardJobLineBelow) {
            least = 0;
        } else if slips(Fault::CardLineAbove, Fault::CardJobLineAbove) {
            least = card.width.saturating_add(1);
        } else if slips(Fault::CardLineByHeight, Fault::CardJobLineByHeight) {
            least = card.height;
        } else if slips(Fault::CardLine1025, Fault::CardJobLine1025) {
            longest = LONGEST + 1;
        } else if slips(Fault::CardLine1023, Fault::CardJobLine1023) {
            longest = LONGEST - 1;
        }
        let judged = card.version != 1 || from == Source::Asked && self.has(Fault::CardJobLineOf1);
        self.are_sides([card.width, card.height], from) && (!judged || (least..=longest).contains(&card.line))
    }
}
