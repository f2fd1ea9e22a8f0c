//! A row with ECC: the code worked out bit by bit, reading by distance, writing by the bits already present.

use crate::fault::Fault;
use crate::row::{bit, within};
use crate::shape::LARGEST;

/// Check bit i covers the bits of mask i; the last covers the first five.
const MASKS: [u32; 6] = [0x00ad5b, 0x00366d, 0x00c78e, 0x0007f0, 0x00f800, 0x1fffff];
const CODE_BITS: u32 = 22;
const CODE_PART: u32 = 0x3f_ffff;
const POLARITY: u32 = 0xc0_0000;

/// A value read: its code is the word itself, or the word with one place changed.
#[derive(Clone, Copy, Debug, PartialEq, Eq)]
pub struct Near {
    pub value: u16,
    pub repaired: Option<u8>,
}

/// The codes of all 65,536 values, and for each 22-bit word the value within one place of it.
pub struct Codes {
    codes: Vec<u32>,
    near: Vec<Option<Near>>,
    fault: Option<Fault>,
    /// How many words lay near two values: none, with the masks of document 01.
    pub shared: usize,
}

/// The code of a value: the check bits are worked out in order, each from the bits that stand so far.
fn code_of(value: u32, masks: &[u32; 6]) -> u32 {
    let mut word = value;
    for (i, mask) in masks.iter().enumerate() {
        let ones = (0..CODE_BITS)
            .filter(|place| bit(*mask, *place) && bit(word, *place))
            .count();
        if ones % 2 == 1 {
            word |= 1 << (16 + i);
        }
    }
    word
}

impl Codes {
    pub fn new(fault: Option<Fault>) -> Codes {
        let mut masks = MASKS;
        if fault == Some(Fault::Mask5Data) {
            masks[5] = 0x00ffff;
        }
        let codes = (0..=0xffff).map(|value| code_of(value, &masks)).collect();
        let mut made = Codes {
            codes,
            near: vec![None; 1 << CODE_BITS],
            fault,
            shared: 0,
        };
        for value in 0..=0xffff {
            made.claim(value, None);
        }
        for value in 0..=0xffff {
            for place in 0..CODE_BITS as u8 {
                made.claim(value, Some(place));
            }
        }
        made
    }

    /// Notes that a word lies near a value. The first claim stands.
    fn claim(&mut self, value: u16, repaired: Option<u8>) {
        let flip = repaired.map_or(0, |place| 1 << place);
        let word = (self.of(u32::from(value)) ^ flip) as usize;
        if self.near[word].is_some() {
            self.shared += 1;
        } else {
            self.near[word] = Some(Near { value, repaired });
        }
    }

    /// The code of a value of 16 bits.
    pub fn of(&self, value: u32) -> u32 {
        self.codes[value as usize]
    }

    /// The value whose code differs from the word's bits 21:0 in at most one place.
    pub fn near(&self, word: u32) -> Option<Near> {
        self.near[(word & CODE_PART) as usize]
    }

    /// Reads one row of 24 bits; none stands for refusal 8.
    pub fn decode(&self, row: u32) -> Option<Near> {
        let inverted = if self.fault == Some(Fault::FlipOnOne) {
            row & POLARITY != 0
        } else {
            row & POLARITY == POLARITY
        };
        self.near(if inverted { self.invert(row) } else { row })
    }

    /// The other polarity of a row.
    fn invert(&self, row: u32) -> u32 {
        row ^ if self.fault == Some(Fault::Flip22) {
            CODE_PART
        } else {
            LARGEST
        }
    }

    /// The row to burn for a value over the bits already there; none stands for refusal 9.
    pub fn polarity(&self, value: u32, old: u32) -> Option<u32> {
        let plain = self.of(value);
        let inverted = self.invert(plain);
        if self.fault == Some(Fault::PolarityFromValue) {
            let chosen = if plain.count_ones() > 12 { inverted } else { plain };
            return Some(chosen).filter(|row| within(old, *row));
        }
        if within(old, plain) {
            Some(plain)
        } else if within(old, inverted) {
            Some(inverted)
        } else {
            None
        }
    }
}
