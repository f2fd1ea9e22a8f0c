//! Permission: who may read a row and who may write it, by the levels of its page and the keys that it takes.

use crate::fault::Fault;
use crate::keys::key_level;
use crate::locks::{key_page, level, owner};
use crate::shape::{State, BOOTLOADER, LOCK_ROWS, NONSECURE, SECURE};

/// The key level of a row: that of the page whose keys it takes.
fn key_level_of_row(fault: Option<Fault>, state: &State, row: u32) -> u32 {
    key_level(fault, state, key_page(fault, row))
}

/// By whose rule a caller goes: by its own.
fn rule_of(fault: Option<Fault>, caller: u32) -> u32 {
    match (fault, caller) {
        (Some(Fault::SecureAsBoot), SECURE) => BOOTLOADER,
        (Some(Fault::BootAsNonsecure), BOOTLOADER) => NONSECURE,
        _ => caller,
    }
}

/// What the bootloader goes by: its own level, Secure's, since it runs as Secure, and the key level (request 2026-05).
/// A fault leaves one of them out.
fn bootloader_levels(fault: Option<Fault>, own: u32, secure: u32, key: u32, left_out: [Fault; 3]) -> [u32; 3] {
    let mut levels = [own, secure, key];
    for (level, slip) in levels.iter_mut().zip(left_out) {
        if fault == Some(slip) {
            *level = 0;
        }
    }
    levels
}

/// Whether the caller may read the row.
pub fn may_read(fault: Option<Fault>, state: &State, caller: u32, row: u32) -> bool {
    if row >= LOCK_ROWS && fault != Some(Fault::LockRowsHidden) {
        return true;
    }
    let rule = rule_of(fault, caller);
    let own = level(fault, state, rule, owner(row));
    let secure = level(fault, state, SECURE, owner(row));
    let key = key_level_of_row(fault, state, row);
    match rule {
        SECURE | NONSECURE => own.max(key) <= 1,
        _ => {
            let left_out = [Fault::BootReadOwn, Fault::BootReadSecure, Fault::BootReadKey];
            let levels = bootloader_levels(fault, own, secure, key, left_out);
            levels.iter().all(|level| *level <= 1)
        }
    }
}

/// Whether the row may be written for the caller.
pub fn may_write(fault: Option<Fault>, state: &State, caller: u32, row: u32) -> bool {
    let page = match fault {
        Some(Fault::LockRowLevels) => key_page(fault, row),
        _ => owner(row),
    };
    let rule = rule_of(fault, caller);
    let own = level(fault, state, rule, page);
    let secure = level(fault, state, SECURE, page);
    let key = key_level_of_row(fault, state, row);
    match rule {
        SECURE => secure == 0 && key == 0,
        NONSECURE if fault == Some(Fault::NonsecureOwnLock) => own == 0 && key == 0,
        NONSECURE if fault == Some(Fault::SecureLockAlone) => secure == 0 && key == 0,
        NONSECURE => own == 0 && secure == 0 && key == 0,
        _ => {
            let left_out = [Fault::BootWriteOwn, Fault::BootWriteSecure, Fault::BootWriteKey];
            bootloader_levels(fault, own, secure, key, left_out) == [0; 3]
        }
    }
}
