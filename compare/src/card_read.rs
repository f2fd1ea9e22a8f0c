//! A card that is read: what is promised of it (request 2026-12), held to what an ECC read as Non-secure says of each of its rows. It asks neither
//! the library nor the model for its rule.
//!
//! The first of the refusals is given that the rows have ground for, and nothing with it. Else version and sizes are those of the rows, in their
//! ranges, so that a line for each of the card's rows of points fits into 245,760 bytes. Nothing but the six rows is looked at, and the sixth
//! only for version 2.

use crate::bench::{Bench, Difference};
use crate::call::Call;
use crate::card_kinds::Shown;
use crate::shape::{Answer, Card, LARGEST, NONSECURE, ROWS};

/// Where a card's rows begin, and where they end.
pub const FIRST: usize = 0x0c0;
pub const END: usize = 0x0c6;
/// A buffer that every card fits into.
const BUFFER: u32 = 245_760;

/// The card that is due by what the calls say of the six rows.
fn due(reads: &[Answer; 6]) -> Card {
    if let Some(refused) = reads[..5].iter().find(|read| read.number != 0) {
        return Card::refused(refused.number);
    }
    let [first, second, version, width, height, _] = reads.map(|read| read.value);
    if (first, second) != (0x5053, 0x004c) {
        return Card::refused(15);
    }
    if version != 1 && version != 2 {
        return Card::refused(16);
    }
    let sixth = if version == 1 { reads[3] } else { reads[5] };
    if sixth.number != 0 {
        return Card::refused(sixth.number);
    }
    let (number, line) = (0, sixth.value);
    let card = Card {
        number,
        version,
        width,
        height,
        line,
    };
    match is_in_range(&card) {
        true => card,
        false => Card::refused(17),
    }
}

/// Whether every size is in its range.
fn is_in_range(card: &Card) -> bool {
    let sides = (1..=320).contains(&card.width) && (1..=240).contains(&card.height);
    sides && (card.width..=1024).contains(&card.line)
}

/// Holds what was read to the promises that need no other call: sizes in range, or no card at all.
pub fn is_card_or_none(bench: &Bench, card: &Card) -> Result<(), Difference> {
    match card.number {
        0 => {
            agree(
                bench,
                card,
                is_in_range(card) && card.line * card.height <= BUFFER,
                "every size of a card is in its range",
            )?;
            let known = card.version == 2 || card.version == 1 && card.line == card.width;
            agree(
                bench,
                card,
                known,
                "a card is of version 2, or of version 1 with its width for its line",
            )
        }
        number => agree(
            bench,
            card,
            *card == Card::refused(number),
            "where there is no card, nothing is said of it",
        ),
    }
}

/// Reads the card among so many rows as they stand, and holds it to all that is promised.
pub fn read(bench: &mut Bench, lent: usize) -> Result<Card, Difference> {
    let mut reads = [Answer::default(); 6];
    for (row, read) in (FIRST as u32..).zip(&mut reads) {
        let caller = NONSECURE;
        *read = bench.call_with(&Call::ReadEcc { caller, row }, lent)?;
    }
    let card = bench.read_card(lent)?;
    is_card_or_none(bench, &card)?;
    let due = due(&reads);
    agree(
        bench,
        &card,
        card == due,
        &format!("by their ECC reads the rows have {due:?}"),
    )?;
    bench.cards.note(&Shown { card, reads });
    Ok(card)
}

/// Reads the card, and again with other entries in all rows that it does not look at: it is the same card.
pub fn read_alone(bench: &mut Bench) -> Result<Card, Difference> {
    let card = read(bench, ROWS)?;
    let before = bench.rows().to_vec();
    let looked_at = if card.number == 0 && card.version == 1 {
        END - 1
    } else {
        END
    };
    let mut other = before.clone();
    for (row, entry) in other.iter_mut().enumerate() {
        if !(FIRST..looked_at).contains(&row) {
            *entry = !*entry & if row % 2 == 0 { LARGEST } else { u32::MAX };
        }
    }
    bench.load(&other);
    let again = bench.read_card(ROWS)?;
    agree(
        bench,
        &again,
        again == card,
        "nothing but the six rows is looked at, and the sixth only for version 2",
    )?;
    bench.load(&before);
    Ok(card)
}

/// Reads a card with one flipped bit in each of its rows, among bits 21:0: it is the same card.
pub fn read_worn(bench: &mut Bench, card: &Card, places: [u32; 6]) -> Result<(), Difference> {
    let before = bench.rows()[FIRST..END].to_vec();
    for (row, (entry, place)) in (FIRST as u32..).zip(before.iter().zip(places)) {
        bench.put(row, entry ^ 1 << (place % 22));
    }
    let worn = bench.read_card(ROWS)?;
    agree(
        bench,
        &worn,
        worn == *card,
        "one flipped bit in each row leaves the card",
    )?;
    for (row, entry) in (FIRST as u32..).zip(before) {
        bench.put(row, entry);
    }
    Ok(())
}

fn agree(bench: &Bench, card: &Card, holds: bool, what: &str) -> Result<(), Difference> {
    if holds {
        return Ok(());
    }
    let rows = &bench.rows()[FIRST..END];
    Err(Difference(format!(
        "a card fails: {card:?} of rows {rows:#x?}: this does not hold: {what}"
    )))
}
