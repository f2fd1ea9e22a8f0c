//! For timings alone: the bits burnt in each page.

use crate::shape::{Answer, State, PAGES, PAGE_BITS, PAGE_ROWS};

fn bits(rows: &[u32]) -> u32 {
    rows.iter().map(|row| row.count_ones()).sum()
}

/// What a reset fills the tallies with.
pub fn counted(rows: &[u32]) -> [u16; PAGES] {
    let mut tallies = [0; PAGES];
    for (tally, page) in tallies.iter_mut().zip(rows.chunks_exact(PAGE_ROWS)) {
        *tally = bits(page) as u16;
    }
    tallies
}

/// Adds the bits that a row gained to its page.
pub fn gain(state: &mut State, row: u32, bits: u32) {
    let tally = &mut state.tallies[row as usize / PAGE_ROWS];
    *tally = (u32::from(*tally) + bits).min(PAGE_BITS) as u16;
}

/// What a screen would do without tallies.
pub fn count_page(rows: &[u32], page: u32) -> Answer {
    Answer::value(bits(&rows[page as usize * PAGE_ROWS..][..PAGE_ROWS]))
}
