//! The query file: free leading bytes, records, a trailer that points back.

pub mod trailer;

use crate::edition::{Edition, Range};
use crate::record::Record;
use crate::refusals::{check_record, check_to_write, Refusal};
use trailer::{room, Trailer};
pub use trailer::{MOST_RECORDS, TRAILER_BYTES};

pub const MARK: [u8; 4] = *b"QEND";

/// A file that was opened: its edition, where its first record stands, and how many there are.
#[derive(Clone, Copy, Debug, PartialEq, Eq)]
pub struct Opened {
    pub edition: Edition,
    pub first: usize,
    pub count: u32,
}

/// A refused fetch; refusals 1 to 6 and 22 know the record's id.
#[derive(Clone, Copy, Debug, PartialEq, Eq)]
pub struct RefusedFetch {
    pub refusal: Refusal,
    pub id: Option<u32>,
}

/// Refusals 8 to 12.
pub fn open(file: &[u8]) -> Result<Opened, Refusal> {
    let trailer = Trailer::of(file, MARK)?;
    let edition = Edition::of(trailer.edition)?;
    let first = trailer.first(edition.record_bytes())?;
    Ok(Opened { edition, first, count: trailer.count })
}

/// A record's number as a caller hands it over; one beyond 32 bits is no record's, and neither is the highest of 32 bits.
pub fn record_number(n: usize) -> u32 {
    u32::try_from(n).unwrap_or(u32::MAX)
}

/// Record n as it stands, and the range of its edition: refusals 8 to 13, the record itself unchecked.
pub fn record_at(file: &[u8], n: u32) -> Result<(Record, Range), Refusal> {
    let Opened { edition, first, count } = open(file)?;
    if n >= count {
        return Err(Refusal::Index);
    }
    let from = first + edition.records_bytes(n);
    let bytes = &file[from..from + edition.record_bytes()];
    Ok((Record::from_bytes(edition, bytes), edition.range()))
}

/// Record n: refusals 8 to 13, then 1 to 6 and 22.
pub fn fetch(file: &[u8], n: u32) -> Result<Record, RefusedFetch> {
    let found = record_at(file, n).map_err(|refusal| RefusedFetch { refusal, id: None });
    let (record, range) = found?;
    check_record(&record, range)
        .map_err(|refusal| RefusedFetch { refusal, id: Some(record.id) })?;
    Ok(record)
}

/// Writes a record at a place: refusals 1 to 6 and 22, then 10, then 14.
pub fn write_record(
    buffer: &mut [u8],
    at: usize,
    edition: u8,
    record: &Record,
) -> Result<(), Refusal> {
    check_to_write(record, edition)?;
    let edition = Edition::of(edition)?;
    let room = room(buffer, at, edition.record_bytes())?;
    room.copy_from_slice(&record.bytes(edition));
    Ok(())
}

/// Writes the trailer of so many records at a place behind them: refusals 10, 11, 12, 14.
pub fn write_trailer(buffer: &mut [u8], at: usize, edition: u8, count: u32) -> Result<(), Refusal> {
    let edition = Edition::of(edition)?;
    trailer::write(buffer, at, (MARK, edition.number()), edition.record_bytes(), count)
}

/// A trailer's bytes, unchecked: the generators also write wrong ones.
pub fn trailer(edition: Edition, back: u32, count: u32) -> [u8; TRAILER_BYTES] {
    trailer::bytes(MARK, edition.number(), back, count)
}

/// A file of these records and their trailer, unchecked.
pub fn file_of(edition: Edition, records: &[Record]) -> Vec<u8> {
    let mut file: Vec<u8> = records.iter().flat_map(|record| record.bytes(edition)).collect();
    file.extend(trailer(edition, file.len() as u32, records.len() as u32));
    file
}
