//! What `keep` writes and what `tell` prints.

use super::{answered, open, read};
use crate::refusals::Refusal;
use crate::text::{file_line, lines, MOST_INPUT, SWEEP_WORDS};
use crate::told::Told;

/// The most bytes that `tell` reads.
pub const MOST_LOG: usize = 262_144;

/// The answer file that `keep` writes of a query file: 15 before anything else.
pub fn keep(input: &[u8]) -> Result<Vec<u8>, Refusal> {
    if input.len() > MOST_INPUT {
        return Err(Refusal::Long);
    }
    answered(input, SWEEP_WORDS)
}

/// The lines of `sweep` by an answer file; of a refused one, or one with a record that reading refuses, only its number.
pub fn tell(log: &[u8]) -> String {
    all(log).map_or_else(file_line, |answers| lines(answers.into_iter()))
}

/// Every record: 15, 8 to 12, then 16.
fn all(log: &[u8]) -> Result<Vec<Told>, Refusal> {
    if log.len() > MOST_LOG {
        return Err(Refusal::Long);
    }
    (0..open(log)?.count).map(|n| read(log, n)).collect()
}
