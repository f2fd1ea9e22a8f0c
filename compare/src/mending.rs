//! One listed row of a repair pass (request 2026-11): whether it may be mended, what is said of it, and how the report says that.

use crate::code::Near;
use crate::fault::Fault;
use crate::model::Model;
use crate::permission::{may_read, may_write};
use crate::row::{bit, within};
use crate::shape::{
    State, BOOTLOADER, LARGEST, NONSECURE, ROWS, ROW_CLEAN, ROW_DAMAGED, ROW_MENDED, ROW_NOT_PERMITTED, ROW_WORN,
    SECURE,
};
use crate::wear::disagree;

/// What is said of a listed row.
#[derive(Clone, Copy, Debug, PartialEq, Eq)]
pub enum Told {
    Clean,
    /// With the bit that is burnt.
    Mended(u32),
    Worn,
    Damaged,
    NotPermitted,
}

/// A listed row: its number, what it held, and what is said of it.
#[derive(Clone, Copy)]
pub struct Listed {
    pub row: u32,
    pub old: u32,
    pub told: Told,
}

impl Listed {
    /// What it holds afterwards.
    pub fn left(&self) -> u32 {
        match self.told {
            Told::Mended(place) => self.old | 1 << place,
            _ => self.old,
        }
    }

    pub fn is_mended(&self) -> bool {
        matches!(self.told, Told::Mended(_))
    }
}

impl Model {
    /// Whether Secure may write the row.
    pub fn may_mend(&self, state: &State, row: u32) -> bool {
        if row as usize >= ROWS {
            // Only faults of the refusals' order come here.
            return true;
        }
        match self.fault {
            Some(Fault::RepairAsNonsecure) => may_write(None, state, NONSECURE, row),
            Some(Fault::RepairAsBoot) => may_write(None, state, BOOTLOADER, row),
            Some(Fault::RepairIfRead) => may_read(None, state, SECURE, row),
            fault => may_write(fault, state, SECURE, row),
        }
    }

    /// What is said of a row: not permitted first of any.
    pub fn said_of(&self, entry: u32, permitted: bool) -> Told {
        let found = self.found(entry);
        match (self.fault, found) {
            (Some(Fault::RepairDamagedFirst), Told::Damaged) => found,
            (Some(Fault::RepairCleanFirst), Told::Clean) => found,
            (Some(Fault::RepairWornFirst), Told::Worn) => found,
            _ if !permitted => Told::NotPermitted,
            _ => found,
        }
    }

    /// What is said of a row that Secure may write.
    fn found(&self, entry: u32) -> Told {
        if self.has(Fault::Repair3Damaged) && entry > LARGEST {
            return Told::Damaged;
        }
        let Some(near) = self.codes.decode(entry) else {
            return match self.fault {
                Some(Fault::RepairDamagedWorn) => Told::Worn,
                Some(Fault::RepairFlagsFirst) if disagree(entry) => Told::Worn,
                _ => Told::Damaged,
            };
        };
        let sound = match near.repaired {
            None if !disagree(entry) => Told::Clean,
            Some(place) if !disagree(entry) && self.lost_one(entry, near) => Told::Mended(u32::from(place)),
            _ => Told::Worn,
        };
        self.slipped(sound, entry, near)
    }

    /// Whether the row is its value's row, in its own polarity, but for a 1 that it lost: then every 1 of it stands in that row.
    fn lost_one(&self, entry: u32, near: Near) -> bool {
        let plain = self.codes.of(u32::from(near.value));
        match bit(entry, 23) {
            true if self.has(Fault::RepairLostFlipped) => within(entry ^ LARGEST, plain),
            true => within(entry, plain ^ LARGEST),
            false => within(entry, plain),
        }
    }

    /// A sound word as a fault spoils it.
    fn slipped(&self, sound: Told, entry: u32, near: Near) -> Told {
        let repaired = near.repaired.map(u32::from);
        match (self.fault, sound, repaired) {
            (Some(Fault::RepairOneMore), Told::Worn, Some(place)) if !disagree(entry) => Told::Mended(place),
            (Some(Fault::RepairWornMended), Told::Worn, Some(place)) if disagree(entry) && !bit(entry, place) => {
                Told::Mended(place)
            }
            (Some(Fault::RepairFlagMended), Told::Worn, None) => Told::Mended(if bit(entry, 23) { 22 } else { 23 }),
            (Some(Fault::RepairFlagClean), Told::Worn, None) => Told::Clean,
            (Some(Fault::RepairFlagDamaged), Told::Worn, _) if disagree(entry) => Told::Damaged,
            (Some(Fault::RepairMoreDamaged), Told::Worn, _) if !disagree(entry) => Told::Damaged,
            (Some(Fault::RepairDataAlone), Told::Mended(16..), _) => Told::Worn,
            (Some(Fault::RepairBit21), Told::Mended(21), _) => Told::Worn,
            (Some(Fault::RepairPlainAlone), Told::Mended(_), _) if bit(entry, 23) => Told::Worn,
            _ => sound,
        }
    }

    /// The entry of a row in the report: the kind, and 256 times the bit that was burnt.
    pub fn report_entry(&self, listed: &Listed) -> u32 {
        let (kind, place) = match listed.told {
            Told::Clean => (ROW_CLEAN, 0),
            Told::Mended(_) if self.has(Fault::RepairSaysAfter) => (ROW_CLEAN, 0),
            Told::Mended(_) if self.has(Fault::RepairBitUnsaid) => (ROW_MENDED, 0),
            Told::Mended(place) => (ROW_MENDED, place),
            Told::Worn if self.has(Fault::RepairWornBit) => {
                let near = self.codes.decode(listed.old);
                (ROW_WORN, near.and_then(|near| near.repaired).map_or(0, u32::from))
            }
            Told::Worn => (ROW_WORN, 0),
            Told::Damaged => (ROW_DAMAGED, 0),
            Told::NotPermitted => (ROW_NOT_PERMITTED, 0),
        };
        match self.fault {
            Some(Fault::RepairBitFromOne) if kind == ROW_MENDED => kind + 256 * (place + 1),
            Some(Fault::RepairBitMask) if kind == ROW_MENDED => kind + (256 << place),
            Some(Fault::RepairBitLow) => place + 256 * kind,
            Some(Fault::RepairBit16) => kind + 16 * place,
            Some(Fault::RepairKindsSwapped) if kind == ROW_DAMAGED || kind == ROW_WORN => ROW_DAMAGED + ROW_WORN - kind,
            _ => kind + 256 * place,
        }
    }
}
