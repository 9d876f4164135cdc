//! The berth's queries as files: as they come, decided at level 0, and deeper ones, these also by their boxes.

use super::answering::answers;
use super::berth::Berth;
use super::fast::Fast;
use crate::edition::Edition;
use crate::file::file_of;
use crate::record::Record;
use std::ops::RangeInclusive;

pub const SEED: u64 = 1;
pub const QUEUE_WORDS: usize = 4_096;
/// The most records of a file.
const RECORDS: usize = 4_096;
/// Boxes of a deeper query, from the smallest searches to those that come to the budget.
const SIZES: [RangeInclusive<u32>; 4] = [2..=8, 9..=64, 65..=256, 257..=1_000];

/// Queries of one sort, a file's worth.
pub struct Class {
    pub name: String,
    pub file: Vec<u8>,
    pub queries: usize,
}

pub struct Corpus {
    /// Triangles of the gangway and of the hull.
    pub triangles: (usize, usize),
    /// As they come, decided at level 0, more than one box.
    pub classes: [Class; 3],
    /// The last of these by its boxes.
    pub by_size: [Class; 4],
}

impl Corpus {
    pub fn new(seed: u64, edition: Edition) -> Corpus {
        let mut berth = Berth::new(seed, edition);
        let (mut level_0, mut deeper) = (Vec::new(), Vec::new());
        let all: Vec<Record> = (0..RECORDS).map(|_| berth.query()).collect();
        while level_0.len() < RECORDS || deeper.len() < RECORDS {
            let record = berth.query();
            let class = if boxes(&record, edition) == 1 { &mut level_0 } else { &mut deeper };
            if class.len() < RECORDS {
                class.push(record);
            }
        }
        let by_size = SIZES.map(|size| {
            let of_size = deeper.iter().filter(|record| size.contains(&boxes(record, edition)));
            let name = format!("{} to {} boxes", size.start(), size.end());
            Class::new(edition, &name, &of_size.copied().collect::<Vec<_>>())
        });
        let classes = [("as they come", all), ("level 0", level_0), ("deeper", deeper)]
            .map(|(name, records)| Class::new(edition, name, &records));
        Corpus { triangles: berth.triangles(), classes, by_size }
    }
}

impl Class {
    fn new(edition: Edition, name: &str, records: &[Record]) -> Class {
        let file = file_of(edition, records);
        Class { name: name.to_string(), file, queries: records.len() }
    }
}

fn boxes(record: &Record, edition: Edition) -> u32 {
    let (mut queue, mut told) = (vec![0; QUEUE_WORDS], [0; 8]);
    answers::<Fast>(&file_of(edition, &[*record]), &mut queue, &mut told);
    told[6]
}
