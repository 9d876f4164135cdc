//! The refusals' numbers, and the checks on a record and on a queue's length.

use crate::edition::{Edition, Range};
use crate::record::{Record, EDGE_EDGE, VERTEX_FACE};

#[derive(Clone, Copy, Debug, PartialEq, Eq)]
pub enum Refusal {
    Kind = 1,
    Flags = 2,
    Coord = 3,
    Separation = 4,
    Tolerance = 5,
    Budget = 6,
    Queue = 7,
    Short = 8,
    Mark = 9,
    Edition = 10,
    Count = 11,
    Back = 12,
    Index = 13,
    Space = 14,
    Long = 15,
    Word = 16,
    Match = 17,
    Body = 21,
    Cap = 22,
    Outside = 23,
    NotRuledOut = 24,
    Bounds = 27,
}

impl Refusal {
    pub fn number(self) -> u32 {
        self as u32
    }
}

pub const MOST_SEPARATION: u32 = 65_536;
pub const MOST_TOLERANCE: u32 = 1_048_576;
pub const MOST_BUDGET: u32 = 1_000_000;
pub const MOST_CAP: u32 = 1_048_576;
pub const LEAST_WORDS: usize = 2;
pub const MOST_WORDS: usize = 1_048_576;

/// Refusals 1 to 6, lowest number first, then 22.
pub fn check_record(record: &Record, range: Range) -> Result<(), Refusal> {
    check_within(record, range, false)
}

/// The same for a writer, whose edition may be any number; edition 1 has room for one separation and for no cap.
pub fn check_to_write(record: &Record, edition: u8) -> Result<(), Refusal> {
    check_within(record, Range::of(edition), edition == Edition::One.number())
}

/// The same by a range, with edition 1's room or with that of the others.
pub fn check_within(record: &Record, range: Range, as_in_one: bool) -> Result<(), Refusal> {
    let mut coordinates = record.start.iter().chain(&record.end).flatten();
    if record.kind != VERTEX_FACE && record.kind != EDGE_EDGE {
        return Err(Refusal::Kind);
    }
    if record.flags > 1 || record.byte2 != 0 || record.byte3 != 0 {
        return Err(Refusal::Flags);
    }
    if !coordinates.all(|coordinate| range.holds(*coordinate)) {
        return Err(Refusal::Coord);
    }
    let [x, y, z] = record.separations;
    if x.max(y).max(z) > MOST_SEPARATION || as_in_one && (x != y || y != z) {
        return Err(Refusal::Separation);
    }
    if !(range.least_tolerance..=MOST_TOLERANCE).contains(&record.tolerance) {
        return Err(Refusal::Tolerance);
    }
    if !(1..=MOST_BUDGET).contains(&record.budget) {
        return Err(Refusal::Budget);
    }
    if record.cap > MOST_CAP || as_in_one && record.cap != 0 {
        return Err(Refusal::Cap);
    }
    Ok(())
}

/// Refusal 7.
pub fn check_words(words: usize) -> Result<(), Refusal> {
    if (LEAST_WORDS..=MOST_WORDS).contains(&words) {
        Ok(())
    } else {
        Err(Refusal::Queue)
    }
}
