//! What must hold after a call that was lent a queue and numbers to tell.

use super::buffers::{After, Lent};

/// What a call must return and tell, and whether it must leave the queue zero.
pub struct Must<'a> {
    /// The numbers told, or the number that refuses.
    pub told: &'a Result<Vec<u32>, u32>,
    pub answered: bool,
}

/// The number returned, every word of told, every word of the queue: what is not as it must be, a line each.
pub fn differences(
    call: &str,
    code: u32,
    must: &Must,
    queue: &Lent<u64>,
    told: &Lent<u32>,
) -> Vec<String> {
    let mut lines = Vec::new();
    let number = must.told.as_ref().err().copied().unwrap_or(0);
    if code != number {
        lines.push(format!("{call}: returned {code} and must return {number}"));
    }
    let told_after = must.told.as_ref().map_or(After::AsFound, |words| After::Begins(words));
    if let Some(difference) = told.difference(&told_after) {
        lines.push(format!("{call}: told's {difference}"));
    }
    let queue_after = if must.answered { After::Zero } else { After::AsFound };
    if let Some(difference) = queue.difference(&queue_after) {
        lines.push(format!("{call}: the queue's {difference}"));
    }
    lines
}
