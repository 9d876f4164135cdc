//! Query files written from plain text, for people who make one by hand.
//!
//! A line is a record: kind, flags, id, separation, tolerance, budget, then x, y, z of the four points at the start and of the four at
//! the end. Behind a line `edition 2` or `edition 3`, which stands before the records, a record has three separations, and a line `cap N` gives
//! the records behind it that cap, until the next such line. What stands behind a `#` is a remark. A number that a record has room for is
//! written as it is said, refused or not.

use crate::edition::Edition;
use crate::file::file_of;
use crate::record::{Point, Record};
use std::fmt;
use std::num::IntErrorKind;
use std::ops::RangeInclusive;

/// Numbers of a record's points.
const COORDINATES: usize = 24;

/// A line that cannot be taken, and why.
#[derive(Clone, Debug, PartialEq, Eq)]
pub struct WrongLine {
    /// From 1.
    pub line: usize,
    pub why: String,
}

impl fmt::Display for WrongLine {
    fn fmt(&self, f: &mut fmt::Formatter) -> fmt::Result {
        write!(f, "line {}: {}", self.line, self.why)
    }
}

/// The query file of a text, or its first line that cannot be taken.
pub fn write(text: &[u8]) -> Result<Vec<u8>, WrongLine> {
    let mut said = Said::default();
    for (place, line) in text.split(|byte| *byte == b'\n').enumerate() {
        said.take(line).map_err(|why| WrongLine { line: place + 1, why })?;
    }
    Ok(file_of(said.edition(), &said.records))
}

/// What the lines so far have said.
#[derive(Default)]
struct Said {
    edition: Option<Edition>,
    /// Of the records to come.
    cap: u32,
    records: Vec<Record>,
}

impl Said {
    fn edition(&self) -> Edition {
        self.edition.unwrap_or(Edition::One)
    }

    fn take(&mut self, line: &[u8]) -> Result<(), String> {
        let line = std::str::from_utf8(line).map_err(|_| "not text in UTF-8")?;
        let said = line.split('#').next().unwrap_or("");
        let words: Vec<&str> = said.split_whitespace().collect();
        match words[..] {
            [] => {}
            ["edition", ..] => self.edition = Some(self.edition_of(&words[1..])?),
            ["cap", ..] => self.cap = self.cap_of(&words[1..])?,
            _ => self.records.push(Record { cap: self.cap, ..record(self.edition(), &words)? }),
        }
        Ok(())
    }

    /// Of a line that says one.
    fn edition_of(&self, numbers: &[&str]) -> Result<Edition, String> {
        if !self.records.is_empty() {
            return Err("the edition must stand before all records".to_string());
        }
        if self.edition.is_some() {
            return Err("the edition is said a second time".to_string());
        }
        let named = |number: &&str| Edition::of(number.parse().ok()?).ok();
        match numbers {
            [number] => named(number).ok_or(format!("edition {number} is none of 1, 2 and 3")),
            _ => Err(format!("an edition is one number, not {}", numbers.len())),
        }
    }

    /// Of a line that says one.
    fn cap_of(&self, numbers: &[&str]) -> Result<u32, String> {
        if !self.edition().is_by_axis() {
            return Err("a record of edition 1 has no cap".to_string());
        }
        check_whole(numbers)?;
        match numbers {
            [cap] => number("cap", cap),
            _ => Err(format!("a cap is one number, not {}", numbers.len())),
        }
    }
}

/// The record of a line of numbers.
fn record(edition: Edition, words: &[&str]) -> Result<Record, String> {
    check_whole(words)?;
    let separations = if edition.is_by_axis() { 3 } else { 1 };
    let must = 5 + separations + COORDINATES;
    if words.len() != must {
        let (number, has) = (edition.number(), words.len());
        return Err(format!("{has} numbers, and a record of edition {number} has {must}"));
    }
    let (head, points) = words.split_at(must - COORDINATES);
    let byte = |name: &str, word: &str| within(name, word, 0..=255).map(|byte| byte as u8);
    let separation = |axis: usize| number("separation", head[3 + axis.min(separations - 1)]);
    Ok(Record {
        kind: byte("kind", head[0])?,
        flags: byte("flags", head[1])?,
        byte2: 0,
        byte3: 0,
        id: number("id", head[2])?,
        separations: [separation(0)?, separation(1)?, separation(2)?],
        tolerance: number("tolerance", head[3 + separations])?,
        budget: number("budget", head[4 + separations])?,
        cap: 0,
        start: four_points(&points[..COORDINATES / 2])?,
        end: four_points(&points[COORDINATES / 2..])?,
    })
}

/// Whole numbers, whatever their sizes.
fn check_whole(words: &[&str]) -> Result<(), String> {
    let wrong = words.iter().find(|word| !is_whole(word));
    wrong.map_or(Ok(()), |word| Err(format!("'{word}' is no whole number")))
}

/// Whatever its size.
fn is_whole(word: &str) -> bool {
    use IntErrorKind::{NegOverflow, PosOverflow};
    let fault = word.parse::<i64>().err();
    fault.is_none_or(|fault| [NegOverflow, PosOverflow].contains(fault.kind()))
}

/// A whole number that a record has room for.
fn within(name: &str, word: &str, room: RangeInclusive<i64>) -> Result<i64, String> {
    let number = word.parse().ok().filter(|number| room.contains(number));
    number.ok_or(format!("{name} {word} is not from {} to {}", room.start(), room.end()))
}

/// A number of 32 bits unsigned.
fn number(name: &str, word: &str) -> Result<u32, String> {
    within(name, word, 0..=i64::from(u32::MAX)).map(|number| number as u32)
}

/// Four points of twelve numbers.
fn four_points(words: &[&str]) -> Result<[Point; 4], String> {
    let coordinate = |word: &str| {
        let room = i64::from(i32::MIN)..=i64::from(i32::MAX);
        within("coordinate", word, room).map(|coordinate| coordinate as i32)
    };
    let mut points = [[0; 3]; 4];
    for (n, place) in points.as_flattened_mut().iter_mut().enumerate() {
        *place = coordinate(words[n])?;
    }
    Ok(points)
}
