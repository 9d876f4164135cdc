//! The answer file of the shift log: free leading bytes, records of eight numbers, a trailer that points back.

mod sixteen;
pub mod text;

pub use sixteen::check;

use crate::file::trailer::{self, room, Trailer};
use crate::file::{open as open_queries, record_at, TRAILER_BYTES};
use crate::record::word_at;
use crate::refusals::Refusal;
use crate::search::search;
use crate::told::{told_of, Told};

pub const MARK: [u8; 4] = *b"AEND";
/// Whatever the edition of the queries is.
pub const EDITION: u8 = 1;
/// Bytes of one record: eight numbers of 32 bits.
pub const RECORD_BYTES: usize = 32;

/// An answer file that was opened: where its first record stands, and how many there are.
#[derive(Clone, Copy, Debug, PartialEq, Eq)]
pub struct Opened {
    pub first: usize,
    pub count: u32,
}

/// Refusals 8 to 12.
pub fn open(log: &[u8]) -> Result<Opened, Refusal> {
    let trailer = Trailer::of(log, MARK)?;
    if trailer.edition != EDITION {
        return Err(Refusal::Edition);
    }
    Ok(Opened { first: trailer.first(RECORD_BYTES)?, count: trailer.count })
}

/// Record n as it stands: refusals 8 to 13, the record itself unchecked.
pub fn told_at(log: &[u8], n: u32) -> Result<Told, Refusal> {
    let Opened { first, count } = open(log)?;
    if n >= count {
        return Err(Refusal::Index);
    }
    let at = first + n as usize * RECORD_BYTES;
    Ok([0, 4, 8, 12, 16, 20, 24, 28].map(|field| word_at(log, at + field)))
}

/// Record n: refusals 8 to 13, then 16.
pub fn read(log: &[u8], n: u32) -> Result<Told, Refusal> {
    let told = told_at(log, n)?;
    check(&told)?;
    Ok(told)
}

/// Writes a record at a place: refusals 16, then 14.
pub fn write(buffer: &mut [u8], at: usize, told: &Told) -> Result<(), Refusal> {
    check(told)?;
    room(buffer, at, RECORD_BYTES)?.copy_from_slice(&bytes(told));
    Ok(())
}

/// Writes the trailer of so many records at a place behind them: refusals 11, 12, 14.
pub fn write_trailer(buffer: &mut [u8], at: usize, count: u32) -> Result<(), Refusal> {
    trailer::write(buffer, at, (MARK, EDITION), RECORD_BYTES, count)
}

/// A query file with its answers: the query file's 8 to 12, the answer file's 8 to 12, then 17. Ids are compared as they stand.
pub fn matched(file: &[u8], log: &[u8]) -> Result<(), Refusal> {
    let queries = open_queries(file)?.count;
    let answers = open(log)?.count;
    let asked = |n: u32| record_at(file, n).map(|(record, _)| record.id);
    let answered = |n: u32| told_at(log, n).map(|told| told[0]);
    if queries != answers || (0..queries).any(|n| asked(n) != answered(n)) {
        return Err(Refusal::Match);
    }
    Ok(())
}

/// The answer file of a query file, searched with so many words: refusals 8 to 12.
pub fn answered(file: &[u8], words: usize) -> Result<Vec<u8>, Refusal> {
    let count = open_queries(file)?.count;
    let answer = |n: u32| {
        let (record, range) = record_at(file, n)?;
        Ok(told_of(record.id, &search(&record, range, words)))
    };
    let answers: Result<Vec<Told>, Refusal> = (0..count).map(answer).collect();
    Ok(file_of(&answers?))
}

/// A record's bytes, unchecked.
pub fn bytes(told: &Told) -> [u8; RECORD_BYTES] {
    let bytes: Vec<u8> = told.iter().flat_map(|number| number.to_le_bytes()).collect();
    bytes.try_into().expect("eight numbers of four bytes")
}

/// An answer file of these records and their trailer, unchecked.
pub fn file_of(answers: &[Told]) -> Vec<u8> {
    let mut log: Vec<u8> = answers.iter().flat_map(bytes).collect();
    log.extend(trailer::bytes(MARK, EDITION, log.len() as u32, answers.len() as u32));
    log
}

/// Bytes of an answer file of so many records, without leading ones.
pub fn file_bytes(count: usize) -> usize {
    count * RECORD_BYTES + TRAILER_BYTES
}
