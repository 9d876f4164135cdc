//! What `sweep` prints.

use crate::file::{open, record_at};
use crate::refusals::Refusal;
use crate::search::{search, Answer};
use crate::told::{told_of, Told, WORDS};

/// The most bytes that `sweep` reads.
pub const MOST_INPUT: usize = 65_536;
/// The queue that `sweep` searches with.
pub const SWEEP_WORDS: usize = 4_096;

/// Answers counted by the numbers of their words.
#[derive(Clone, Copy, Debug, Default, PartialEq, Eq)]
struct Tallies([u32; WORDS.len()]);

/// The whole text for an input, 15 before anything else.
pub fn sweep(input: &[u8], words: usize) -> String {
    if input.len() > MOST_INPUT {
        return file_line(Refusal::Long);
    }
    sweep_any_length(input, words)
}

/// The same without refusal 15, for files that are handed over in process.
pub fn sweep_any_length(input: &[u8], words: usize) -> String {
    let opened = match open(input) {
        Ok(opened) => opened,
        Err(refusal) => return file_line(refusal),
    };
    let answer = |n| {
        let found = record_at(input, n);
        let (record, range) = found.expect("n is below the count of an opened file");
        told_of(record.id, &search(&record, range, words))
    };
    lines((0..opened.count).map(answer))
}

/// A line for each of these, all with a word that is one, and the TOTAL line.
pub fn lines(answers: impl Iterator<Item = Told>) -> String {
    let mut text = String::new();
    let mut tallies = Tallies::default();
    for told in answers {
        tallies.0[told[1] as usize] += 1;
        text += &told_line(&told);
    }
    text + &tallies.line()
}

/// What is printed of a file that is refused.
pub fn file_line(refusal: Refusal) -> String {
    format!("FILE {}\n", refusal.number())
}

/// A record's line.
pub fn line(id: u32, answer: &Answer) -> String {
    told_line(&told_of(id, answer))
}

fn told_line(told: &Told) -> String {
    let [id, word, t, u, v, excess, count, refusal] = told;
    let name = WORDS[*word as usize];
    if *word == 0 {
        return format!("{id} {name} {refusal}\n");
    }
    format!("{id} {name} {t} {u} {v} {excess} {count}\n")
}

impl Tallies {
    /// The number of records, then the tallies, that of the refused ones last.
    fn line(&self) -> String {
        let records: u32 = self.0.iter().sum();
        let tally = |word: usize| format!(" {} {}", WORDS[word], self.0[word]);
        let tallies: String = (1..WORDS.len()).chain([0]).map(tally).collect();
        format!("TOTAL {records}{tallies}\n")
    }
}
