//! Refusal 16: what the fields of each word may hold.

use crate::refusals::{Refusal, MOST_BUDGET};
use crate::told::{Told, WORDS};

/// The least and the greatest number that a field may hold.
type Held = (u32, u32);

const UNUSED: Held = (0, 0);
/// t, u or v of a low corner, which is never at 1.
const PART: Held = (0, 1_048_575);
const ANY: Held = (0, u32::MAX);
const COUNT: Held = (1, MOST_BUDGET);
const NUMBER: Held = (1, u32::MAX);

/// An answer with a moment and place.
const RECORDED: [Held; 6] = [PART, PART, PART, ANY, COUNT, UNUSED];

/// By word: t, u, v, excess, count, refusal number.
const FIELDS: [[Held; 6]; WORDS.len()] = [
    [UNUSED, UNUSED, UNUSED, UNUSED, UNUSED, NUMBER],
    RECORDED,
    [UNUSED, UNUSED, UNUSED, UNUSED, COUNT, UNUSED],
    RECORDED,
    RECORDED,
    RECORDED,
];

/// Refusal 16.
pub fn check(told: &Told) -> Result<(), Refusal> {
    let fields = FIELDS.get(told[1] as usize).ok_or(Refusal::Word)?;
    let mut held = told[2..].iter().zip(fields);
    if held.any(|(number, (least, most))| number < least || number > most) {
        return Err(Refusal::Word);
    }
    Ok(())
}
