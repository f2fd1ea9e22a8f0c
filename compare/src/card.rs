//! The splash card (request 2026-12), read as Non-secure from five ECC rows, or six: all of it, or nothing.

use crate::card_sizes::Source;
use crate::fault::Fault;
use crate::ladder::need;
use crate::model::Model;
use crate::shape::{Card, State, BOOTLOADER, CLEAN, NONSECURE, ROWS, SECURE};
use Rung::{Mark, Row, Rows, Sides, Sixth, Sizes, Version};

/// The first row of a card, and what its first two rows hold.
pub const FIRST: u32 = 0x0c0;
pub const MARK: [u32; 2] = [0x5053, 0x004c];
/// The place of the sixth row, which version 2 has.
const SIXTH: u32 = 5;

/// What is looked at when a card is read: a row by its place, all of the first five for one refusal, the mark, the version, the sixth row where
/// the version has one, width and height alone, and every size.
#[derive(Clone, Copy)]
enum Rung {
    Row(u32),
    Rows(u32),
    Mark,
    Version,
    Sixth,
    Sides,
    Sizes,
}

impl Model {
    /// Reads the card.
    pub fn card(&self, rows: &[u32], state: &State) -> Result<Card, u32> {
        let lent = self.lent(rows);
        for rung in self.card_rungs() {
            self.card_look(rung, &lent, state)?;
        }
        let card = self.card_in(&lent, state)?;
        Ok(match self.has(Fault::CardTurned) {
            true => Card {
                width: card.height,
                height: card.width,
                ..card
            },
            false => card,
        })
    }

    /// The rows as they are lent. Only faults make another number of them good.
    fn lent(&self, rows: &[u32]) -> Vec<u32> {
        let taken = match self.fault {
            Some(Fault::CardLongTaken) => rows.len() > ROWS,
            Some(Fault::CardShortTaken) => rows.len() > (FIRST + SIXTH) as usize && rows.len() < ROWS,
            _ => false,
        };
        let mut lent = rows.to_vec();
        if taken {
            lent.resize(ROWS, 0);
        }
        lent
    }

    /// What is looked at, in its order: five rows, lowest first, the mark, the version, a version 2 card's sixth row, the sizes.
    fn card_rungs(&self) -> Vec<Rung> {
        let five = [0, 1, 2, 3, 4].map(Row).to_vec();
        let after = |list: &[Rung]| [five.clone(), list.to_vec()].concat();
        match self.fault {
            Some(Fault::CardHighestFirst) => [4, 3, 2, 1, 0]
                .map(Row)
                .into_iter()
                .chain([Mark, Version, Sixth, Sizes])
                .collect(),
            Some(Fault::CardByNumber) => [1, 6, 7, 3, 8]
                .map(Rows)
                .into_iter()
                .chain([Mark, Version, Sixth, Sizes])
                .collect(),
            Some(Fault::CardMarkAtOnce) => vec![Row(0), Row(1), Mark, Row(2), Row(3), Row(4), Version, Sixth, Sizes],
            Some(Fault::CardVersionAtOnce) => {
                vec![Row(0), Row(1), Row(2), Mark, Version, Row(3), Row(4), Sixth, Sizes]
            }
            Some(Fault::CardSidesAtOnce) => after(&[Sides, Mark, Version, Sixth, Sizes]),
            Some(Fault::Card16Before15) => after(&[Version, Mark, Sixth, Sizes]),
            Some(Fault::Card17Before16) => after(&[Mark, Sides, Version, Sixth, Sizes]),
            Some(Fault::CardSixthAtOnce) => after(&[Sixth, Mark, Version, Sizes]),
            Some(Fault::CardSixthAfter17) => after(&[Mark, Version, Sides, Sixth, Sizes]),
            _ => after(&[Mark, Version, Sixth, Sizes]),
        }
    }

    /// One of the looks: goes on, or refuses.
    fn card_look(&self, rung: Rung, rows: &[u32], state: &State) -> Result<(), u32> {
        let value = |place| self.card_value(rows, state, place);
        match rung {
            Row(place) => value(place).map(|_| ()),
            Rows(number) => need((0..SIXTH).all(|place| value(place) != Err(number)), number),
            Mark => need(self.is_mark([value(0)?, value(1)?]), 15),
            Version => need(self.is_card_version(value(2)?), 16),
            Sixth => match self.has_sixth(value(2)?) {
                true => self.sixth(rows, state).map(|_| ()),
                false => Ok(()),
            },
            Sides => {
                let (width, height) = (value(3)?, value(4)?);
                need(self.are_sides([width, height], Source::Read), 17)
            }
            Sizes => need(self.are_sizes(&self.card_in(rows, state)?, Source::Read), 17),
        }
    }

    /// The number in a row of the card, by its place: an ECC read as Non-secure.
    fn card_value(&self, rows: &[u32], state: &State, place: u32) -> Result<u32, u32> {
        let caller = match self.fault {
            Some(Fault::CardAsSecure) => SECURE,
            Some(Fault::CardAsBoot) => BOOTLOADER,
            _ => NONSECURE,
        };
        let row = place + FIRST + u32::from(self.has(Fault::CardRowLater));
        if self.has(Fault::CardRaw) {
            let raw = self.raw_read(rows, state, caller, row)?;
            return Ok(raw.value & 0xffff);
        }
        match self.ecc_read(rows, state, caller, row) {
            Ok(read) if read.condition != CLEAN && self.has(Fault::CardWorn8) => Err(8),
            Err(8) if self.has(Fault::CardDamagedBlank) => Ok(0),
            read => read.map(|read| read.value),
        }
    }

    /// The number in the sixth row.
    fn sixth(&self, rows: &[u32], state: &State) -> Result<u32, u32> {
        match self.card_value(rows, state, SIXTH) {
            Err(3 | 8) if self.has(Fault::CardSixth17) => Err(17),
            read => read,
        }
    }

    fn is_mark(&self, found: [u32; 2]) -> bool {
        match self.fault {
            Some(Fault::CardMarkFirst) => found[0] == MARK[0],
            Some(Fault::CardMarkSecond) => found[1] == MARK[1],
            Some(Fault::CardMarkEither) => found[0] == MARK[0] || found[1] == MARK[1],
            Some(Fault::CardMarkSwapped) => found == [MARK[1], MARK[0]],
            Some(Fault::CardMarkLow) => found[0] == MARK[0] && found[1] & 0xff == MARK[1],
            _ => found == MARK,
        }
    }

    /// Whether a card in the rows may have this version.
    fn is_card_version(&self, version: u32) -> bool {
        match self.fault {
            Some(Fault::CardVersion0) => version <= 2,
            Some(Fault::CardVersion3) => (1..=3).contains(&version),
            Some(Fault::CardVersion2Unknown) => version == 1,
            Some(Fault::CardVersionLow) => [1, 2].contains(&(version & 0xff)),
            _ => [1, 2].contains(&version),
        }
    }

    /// Whether the sixth row of a card in the rows is looked at.
    fn has_sixth(&self, version: u32) -> bool {
        match self.fault {
            Some(Fault::CardSixthOf1) => [1, 2].contains(&version),
            Some(Fault::CardSixthUnread) => false,
            Some(Fault::CardVersion3) => [2, 3].contains(&version),
            Some(Fault::CardVersionLow) => version & 0xff == 2,
            _ => version == 2,
        }
    }

    /// The card in the rows, whatever its sizes are: a version 1 card's line is its width.
    fn card_in(&self, rows: &[u32], state: &State) -> Result<Card, u32> {
        let value = |place| self.card_value(rows, state, place);
        let (version, width, height) = (value(2)?, value(3)?, value(4)?);
        let line = match self.fault {
            Some(Fault::CardLineOfRow) => self.sixth(rows, state).unwrap_or(width),
            Some(Fault::CardLineOf1None) if version == 1 => 0,
            Some(Fault::CardLineIsWidth) => width,
            _ if self.has_sixth(version) && version != 1 => self.sixth(rows, state)?,
            _ => width,
        };
        Ok(Card {
            number: 0,
            version,
            width,
            height,
            line,
        })
    }

    /// What a card answers that is refused: its number, and nothing else. Faults leave what was read before.
    pub fn refused_card(&self, rows: &[u32], state: &State, number: u32) -> Card {
        let value = |place| self.card_value(rows, state, place).unwrap_or_default();
        let none = Card::refused(number);
        match (self.fault, number) {
            (Some(Fault::CardKeepsVersion), 16) => Card {
                version: value(2),
                ..none
            },
            (Some(Fault::CardKeepsSizes), 17) => Card {
                number,
                version: value(2),
                width: value(3),
                height: value(4),
                line: value(if value(2) == 1 { 3 } else { SIXTH }),
            },
            (Some(Fault::CardKeepsFive), 3 | 8) if self.has_sixth(value(2)) => Card {
                number,
                version: value(2),
                width: value(3),
                height: value(4),
                line: 0,
            },
            _ => none,
        }
    }
}
