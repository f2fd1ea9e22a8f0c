//! Every lock row written raw, by each caller, with a key entered and none, under each choice of keys and levels for its own
//! lock word and for pages 62 and 63.

use crate::bench::{Bench, Difference};
use crate::call::Call;
use crate::shape::{State, CALLERS, LOCK_ROWS};
use crate::states::{set_keys, set_levels, with_keys};

/// A page's write key, read key and no-key state: none, the entered key to write, the entered key to read, another key to write.
const SETTINGS: [(u8, u8, bool); 4] = [(0, 0, false), (1, 0, true), (0, 1, false), (2, 0, false)];

/// Levels of the row's own word, Secure, Non-secure and bootloader, and all three levels of pages 62 and 63.
const LEVELS: [([u8; 3], u8); 5] = [
    ([0, 0, 0], 0),
    ([1, 0, 0], 0),
    ([0, 1, 0], 0),
    ([0, 0, 1], 0),
    ([0, 0, 0], 2),
];

/// Every state of the choices for one lock word. The word is set last: that of page 62 or 63 is then as its own choice says.
pub fn states(word: usize) -> Vec<State> {
    let mut states = Vec::new();
    for entered in [false, true] {
        for (of_62, of_63) in SETTINGS.iter().flat_map(|a| SETTINGS.iter().map(move |b| (*a, *b))) {
            for (own, (levels, last)) in SETTINGS.iter().flat_map(|a| LEVELS.iter().map(move |b| (*a, *b))) {
                let mut state = with_keys(entered);
                for (page, keys, levels) in [(62, of_62, [last; 3]), (63, of_63, [last; 3]), (word, own, levels)] {
                    set_keys(&mut state, page, keys);
                    set_levels(&mut state, page, levels);
                }
                states.push(state);
            }
        }
    }
    states
}

/// Makes the writes. Each is over a blank row.
pub fn every_lock_row(bench: &mut Bench) -> Result<(), Difference> {
    for word in 0..64 {
        for state in states(word) {
            for row in [LOCK_ROWS + 2 * word as u32, LOCK_ROWS + 2 * word as u32 + 1] {
                for caller in 0..CALLERS {
                    bench.state = state;
                    bench.put(row, 0);
                    bench.call(&Call::WriteRaw { caller, row, value: 1 })?;
                }
            }
        }
    }
    Ok(())
}
