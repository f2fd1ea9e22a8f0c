//! The library as it is seen from C: each call is made by the driver, a program in C over `libotp.a` and `libsplash.a`.

use std::cell::{Cell, RefCell};
use std::env;
use std::ops::Range;
use std::process::exit;

use crate::call::{Call, Chip, Lent};
use crate::driver::Driver;
use crate::shape::{Answer, Outcome, State, SECURE};

/// What the comparison is made with.
pub const NAME: &str = "libotp.a and libsplash.a";

/// The variable that holds the driver's command.
const VARIABLE: &str = "OTP_DRIVER";

/// The library, behind its driver.
pub struct Library {
    driver: RefCell<Driver>,
    calls: Cell<u64>,
}

/// Starts the library's driver. The command is the one given, else that of the variable.
pub fn library(given: Option<&str>) -> Result<Library, String> {
    let variable = env::var(VARIABLE).ok();
    let command = given
        .or(variable.as_deref())
        .ok_or(format!("no driver: give its command first, or in {VARIABLE}"))?;
    Ok(Library {
        driver: RefCell::new(Driver::start(command)?),
        calls: Cell::new(0),
    })
}

impl Library {
    /// Where the driver fails, or does what it may not, the comparison is over: that is said in one line.
    fn fail(&self, call: &Call, why: &str) -> ! {
        println!("compare: call {} ({}): {why}", self.calls.get(), call.kind().name);
        exit(1)
    }

    /// Holds a call to the entries that it may change: the first so many.
    fn hold(&self, call: &Call, changed: &[(usize, u32)], lent: usize) {
        if let Some((place, value)) = changed.iter().find(|(place, _)| *place >= lent) {
            self.fail(
                call,
                &format!("rows[{place:#05x}] became {value:#08x}, and was not lent for that"),
            );
        }
    }
}

impl Chip for Library {
    fn make(&self, call: &Call, rows: &mut [u32], state: State) -> Outcome {
        self.calls.set(self.calls.get() + 1);
        let (shown, lent) = match call.kind().lent {
            Lent::Never => (0, 0),
            Lent::ToRead => (rows.len(), 0),
            Lent::ToBurn => (rows.len(), rows.len()),
        };
        let reply = self.driver.borrow_mut().ask(call, &rows[..shown], &state);
        let reply = reply.unwrap_or_else(|why| self.fail(call, &why));
        self.hold(call, &reply.changed, lent);
        for (place, value) in &reply.changed {
            rows[*place] = *value;
        }
        Outcome {
            answer: reply.answer,
            state: reply.state.unwrap_or(state),
            beside: reply.beside,
        }
    }

    fn read_each(&self, row: u32, entries: Range<u32>) -> Vec<Answer> {
        self.calls.set(self.calls.get() + entries.len() as u64);
        let call = Call::ReadEcc { caller: SECURE, row };
        let reply = self.driver.borrow_mut().ask_each(row, entries);
        let (answers, changed) = reply.unwrap_or_else(|why| self.fail(&call, &why));
        self.hold(&call, &changed, 0);
        answers
    }
}
