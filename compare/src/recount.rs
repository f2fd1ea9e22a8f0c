//! A plain recount of each page's rows, which the tallies must equal as long as rows change only by calls after a reset. It goes by
//! the rows alone, and asks neither the library nor the model.

use crate::bench::{Bench, Difference};
use crate::shape::{PAGES, PAGE_ROWS};

/// The bits of each page's 64 rows, counted row by row.
pub fn recount(rows: &[u32]) -> [u16; PAGES] {
    let mut bits = [0; PAGES];
    for (page, bits) in bits.iter_mut().enumerate() {
        for row in &rows[PAGE_ROWS * page..][..PAGE_ROWS] {
            *bits += row.count_ones() as u16;
        }
    }
    bits
}

/// Holds the tallies to it after a call.
pub fn tallies_are_right(bench: &Bench, call: &str) -> Result<(), Difference> {
    let right = recount(bench.rows());
    let wrong = (0..PAGES).find(|page| bench.state.tallies[*page] != right[*page]);
    wrong.map_or(Ok(()), |page| {
        let (tally, right) = (bench.state.tallies[page], right[page]);
        let calls = bench.counts.calls;
        Err(Difference(format!(
            "call {calls} leaves a wrong tally: {call}: tallies[{page}] is {tally}, and the page has {right} bits"
        )))
    })
}
