//! The model of document 01, sound or with one fault: what its rules need to know beside rows and a state.

use std::rc::Rc;

use crate::code::Codes;
use crate::fault::Fault;
use crate::shape::{BOOTLOADER, CALLERS, DOMAINS};

#[derive(Clone)]
pub struct Model {
    pub codes: Rc<Codes>,
    pub fault: Option<Fault>,
}

impl Model {
    fn new(fault: Option<Fault>) -> Model {
        Model {
            codes: Rc::new(Codes::new(fault)),
            fault,
        }
    }

    pub fn sound() -> Model {
        Model::new(None)
    }

    pub fn faulty(fault: Fault) -> Model {
        Model::new(Some(fault))
    }

    pub fn has(&self, fault: Fault) -> bool {
        self.fault == Some(fault)
    }

    /// Whether there is such a caller: Secure, Non-secure or the bootloader.
    pub fn is_caller(&self, caller: u32) -> bool {
        match self.fault {
            Some(Fault::Caller2Refused) => caller < BOOTLOADER,
            Some(Fault::Caller3Allowed) => caller <= CALLERS,
            _ => caller < CALLERS,
        }
    }

    /// Whether there is such a lock domain, one for each caller.
    pub fn is_domain(&self, domain: u32) -> bool {
        match self.fault {
            Some(Fault::Domain2Unshown) => domain < BOOTLOADER,
            Some(Fault::Domain3Allowed) => domain <= DOMAINS,
            _ => domain < DOMAINS,
        }
    }
}
