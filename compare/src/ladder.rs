//! A ladder of refusals: what each call and job goes down, rung by rung, in the order of document 01's table.

/// Goes on where the condition holds, else refuses with the number.
pub fn need(holds: bool, number: u32) -> Result<(), u32> {
    if holds {
        Ok(())
    } else {
        Err(number)
    }
}
