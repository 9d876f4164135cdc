//! A query file answered into an answer file by one call, and what is read back of it.

use crate::answer_file::{file_bytes, RECORD_BYTES};
use crate::record::word_at;

/// Where an answer's count stands.
const COUNT_AT: usize = 24;

/// As `taperhive_answers`, by way of an answer file: told is what is read back. Its code, or one of a reading that is refused.
pub fn read_back(
    log: impl Fn(&[u8], &mut [u64], &mut [u8]) -> u32,
    read: impl Fn(&[u8], usize, &mut [u32]) -> u32,
    file: &[u8],
    queue: &mut [u64],
    told: &mut [u32],
) -> u32 {
    let mut answers = room(told.len() / 8);
    let code = log(file, queue, &mut answers);
    let told = told.chunks_exact_mut(8).enumerate();
    told.map(|(n, told)| read(&answers, n, told)).fold(code, u32::max)
}

/// Bytes for an answer file of so many records, none of them right yet.
pub fn room(count: usize) -> Vec<u8> {
    vec![0xff; file_bytes(count)]
}

/// The boxes of an answer file without free bytes.
pub fn boxes(answers: &[u8]) -> u64 {
    let records = answers.chunks_exact(RECORD_BYTES);
    records.map(|record| u64::from(word_at(record, COUNT_AT))).sum()
}
