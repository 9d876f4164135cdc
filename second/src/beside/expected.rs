//! What the library must give, by the second program.

use crate::file::{open, record_at};
use crate::refusals::check_words;
use crate::search::search;
use crate::told::told_of;

/// Numbers told of one record: id, word, t, u, v, excess, count, refusal number.
pub const TOLD: usize = 8;
pub const INDEX: u32 = 13;
pub const SPACE: u32 = 14;

/// The answers to a file with a queue of so many words.
pub struct Expected {
    words: usize,
    /// Told of each record, or the refusal 8 to 12.
    pub records: Result<Vec<[u32; TOLD]>, u32>,
}

impl Expected {
    pub fn of(file: &[u8], words: usize) -> Expected {
        let opened = open(file).map_err(|refusal| refusal.number());
        let records = opened.map(|opened| {
            let one = |n| {
                let found = record_at(file, n);
                let (record, range) = found.expect("n is below the count of an opened file");
                told_of(record.id, &search(&record, range, words))
            };
            (0..opened.count).map(one).collect()
        });
        Expected { words, records }
    }

    /// True where these are also the answers with so many words.
    pub fn serves(&self, words: usize) -> bool {
        let refused = [self.words, words].map(|words| check_words(words).is_err());
        refused == [true; 2] || refused == [false; 2] && self.words / 2 == words / 2
    }

    pub fn count(&self) -> usize {
        self.records.as_ref().map_or(0, Vec::len)
    }

    /// All records into a lent buffer: the numbers, or the refusal 8 to 12, then 14.
    pub fn all(&self, lent: usize) -> Result<Vec<[u32; TOLD]>, u32> {
        let records = self.records.clone()?;
        if lent < TOLD * records.len() {
            return Err(SPACE);
        }
        Ok(records)
    }

    /// Record n into a lent buffer: its numbers, or the refusal 8 to 13, then 14.
    pub fn one(&self, n: usize, lent: usize) -> Result<[u32; TOLD], u32> {
        let records = self.records.as_ref().map_err(|number| *number)?;
        let told = records.get(n).ok_or(INDEX)?;
        if lent < TOLD {
            return Err(SPACE);
        }
        Ok(*told)
    }
}

/// True where a record was answered and not refused.
pub fn answered(told: &[u32; TOLD]) -> bool {
    told[1] != 0
}
