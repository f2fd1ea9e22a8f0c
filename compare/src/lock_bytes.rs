//! Every byte that the copies of a lock row can hold, latched by a reset: all three the same, and each one of them any other.

use crate::bench::{Bench, Difference};
use crate::call::Call;
use crate::shape::{LARGEST, LOCK_ROWS};

/// How many choices there are of a byte, of which copy is wrong, and of what stands there.
const CHOICES: u32 = 256 * 3 * 256;

/// A lock row of one choice: three copies of a byte, and in the place of one of them any byte, the right one among them.
fn lock_row(choice: u32) -> u32 {
    let (byte, wrong, place) = (choice % 256, choice / 256 % 256, choice / 65536);
    let copies = byte * 0x01_0101;
    let cleared = copies & !(0xff << (8 * place));
    cleared | wrong << (8 * place)
}

/// Makes the resets. Each latches 64 choices in the high rows, and the same with every bit flipped in the low ones; the first
/// of them goes from page to page.
pub fn every_lock_byte(bench: &mut Bench) -> Result<(), Difference> {
    for (turn, first) in (0..CHOICES).step_by(64).enumerate() {
        for page in 0..64 {
            let row = lock_row(first + (page + turn as u32) % 64);
            let low = LOCK_ROWS + 2 * page;
            bench.put(low, row ^ LARGEST);
            bench.put(low + 1, row);
        }
        bench.call(&Call::Reset {})?;
    }
    Ok(())
}
