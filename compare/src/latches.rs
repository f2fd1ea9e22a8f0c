//! The calls on what is latched: reset, advancing and showing a lock, entering a key.

use crate::fault::Fault;
use crate::keys::{latch_key, words};
use crate::ladder::need;
use crate::locks::{latch, level};
use crate::model::Model;
use crate::shape::{State, BOOTLOADER, LARGEST, NONSECURE, ROWS, SECURE};
use crate::tallies::filled;

impl Model {
    pub fn latched(&self, rows: &[u32], before: &State) -> Result<State, u32> {
        need(rows.len() == ROWS, 1)?;
        need(rows.iter().all(|entry| *entry <= LARGEST), 3)?;
        let mut state = State::blank();
        for page in 0..64 {
            latch(self.fault, rows, page, &mut state);
        }
        for k in 1..=6 {
            state.keys[k as usize - 1] = latch_key(self.fault, &self.codes, rows, k);
        }
        state.tallies = filled(self.fault, rows);
        if self.has(Fault::TalliesKept) {
            state.tallies = before.tallies;
        }
        if self.has(Fault::EnteredKept) {
            state.entered = before.entered;
        }
        if self.has(Fault::BootKept) {
            state.bootloader = before.bootloader;
        }
        Ok(state)
    }

    /// Secure may advance its own domain and Non-secure's, Non-secure only its own, the bootloader none. No soft lock exists
    /// for the bootloader, so nobody advances its domain (request 2026-05).
    fn may_advance(&self, caller: u32, domain: u32) -> bool {
        match (caller, domain) {
            (_, BOOTLOADER..) => self.has(Fault::AdvanceDomain2) && caller == SECURE,
            (BOOTLOADER.., _) => self.has(Fault::BootAdvances),
            (SECURE, _) => true,
            _ => domain == NONSECURE,
        }
    }

    pub fn advanced(&self, before: &State, caller: u32, domain: u32, page: u32, asked: u32) -> Result<State, u32> {
        need(caller != BOOTLOADER || !self.has(Fault::BootAdvance7First), 7)?;
        need(
            self.is_caller(caller) && self.is_domain(domain) && page <= 63 && asked <= 2,
            4,
        )?;
        let present = level(self.fault, before, domain, page as usize);
        let nothing_asked = domain == BOOTLOADER && asked <= present && self.has(Fault::Domain2Equal);
        need(self.may_advance(caller, domain) || nothing_asked, 7)?;
        let mut state = *before;
        if asked > present || self.has(Fault::AdvanceLowers) {
            self.set_level(&mut state, domain, page as usize, asked as u8);
        }
        Ok(state)
    }

    fn set_level(&self, state: &mut State, domain: u32, page: usize, asked: u8) {
        let locks = match domain {
            SECURE => &mut state.secure,
            NONSECURE => &mut state.nonsecure,
            _ => &mut state.bootloader,
        };
        locks[page] = asked;
        if domain == NONSECURE && self.has(Fault::AdvanceMovesBoot) {
            state.bootloader[page] = asked;
        }
    }

    pub fn shown(&self, state: &State, caller: u32, domain: u32, page: u32) -> Result<u32, u32> {
        need(self.is_caller(caller) && self.is_domain(domain) && page <= 63, 4)?;
        Ok(level(self.fault, state, domain, page as usize))
    }

    pub fn entered(&self, before: &State, caller: u32, key: &[u8]) -> Result<State, u32> {
        need(caller != BOOTLOADER || !self.has(Fault::BootKey7First), 7)?;
        need(self.is_caller(caller) && key.len() == 16, 4)?;
        need(
            caller == SECURE || caller == BOOTLOADER && self.has(Fault::BootEntersKey),
            7,
        )?;
        let mut state = *before;
        state.entered = words(key);
        Ok(state)
    }
}
