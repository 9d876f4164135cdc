//! What a comparison has gone through.

use super::expected::TOLD;
use super::progress::Counts;
use crate::edition::Edition;
use crate::told::WORDS;
use std::fmt;

/// The highest number of a refusal.
const MOST_NUMBER: usize = 22;

#[derive(Clone, Debug, Default)]
pub struct Tally {
    files: u64,
    differing: u64,
    calls: u64,
    /// Records compared, of editions 1, 2 and 3.
    queries: [u64; Edition::ALL.len()],
    boxes: u64,
    /// Calls that copy a record, that write one from numbers, and that write a trailer.
    copies: u64,
    given: u64,
    /// Pairs told without a file, of any edition.
    pairs: u64,
    trailers: u64,
    /// Whole files written by such calls.
    written: u64,
    /// Calls on answer files, in the order of `LogCall`.
    logs: [u64; 7],
    /// Answers by word, refused records first.
    words: [u64; 6],
    /// Refusals by number: 1 to 7 and 22 of records, 8 to 17 of calls and programs; a copy's are any of 1 to 14, and 22.
    refusals: [u64; MOST_NUMBER + 1],
}

/// What a call does with an answer file.
#[derive(Clone, Copy, Debug)]
pub enum LogCall {
    Write,
    Trailer,
    Read,
    Count,
    Match,
    Whole,
    Tell,
}

impl Tally {
    /// A call, and the number that refuses it.
    pub fn call(&mut self, refusal: Option<u32>) {
        self.calls += 1;
        if let Some(number) = refusal {
            self.refusals[number as usize] += 1;
        }
    }

    /// A call that copies a record, and the number that refuses it, or 0.
    pub fn copy(&mut self, number: u32) {
        self.copies += 1;
        self.call((number != 0).then_some(number));
    }

    /// The same of a record from numbers.
    pub fn given(&mut self, number: u32) {
        self.given += 1;
        self.call((number != 0).then_some(number));
    }

    /// The same of a trailer.
    pub fn trailer(&mut self, number: u32) {
        self.trailers += 1;
        self.call((number != 0).then_some(number));
    }

    /// The same of a call on an answer file.
    pub fn log(&mut self, call: LogCall, number: u32) {
        self.logs[call as usize] += 1;
        self.call((number != 0).then_some(number));
    }

    pub fn written(&mut self) {
        self.written += 1;
    }

    /// What must be told of a record of a file of this edition.
    pub fn told(&mut self, edition: Edition, told: &[u32; TOLD]) {
        self.queries[usize::from(edition.number()) - 1] += 1;
        self.answer(told);
    }

    /// The same of a pair without a file, which is no file's query.
    pub fn pair(&mut self, told: &[u32; TOLD]) {
        self.pairs += 1;
        self.answer(told);
    }

    fn answer(&mut self, told: &[u32; TOLD]) {
        self.boxes += u64::from(told[6]);
        self.words[told[1] as usize] += 1;
        if told[1] == 0 {
            self.refusals[told[7] as usize] += 1;
        }
    }

    /// What `sweep` must print of a file of this edition.
    pub fn text(&mut self, edition: Edition, text: &str) {
        let mut refusal = None;
        for line in text.lines() {
            let fields: Vec<&str> = line.split(' ').collect();
            let last: u32 = fields[fields.len() - 1].parse().expect("a line ends in a number");
            let word = WORDS.iter().position(|word| *word == fields[1]).unwrap_or(0) as u32;
            match fields[..] {
                ["FILE", _] => refusal = Some(last),
                ["TOTAL", ..] => {}
                [_, "REFUSED", _] => self.told(edition, &[0, 0, 0, 0, 0, 0, 0, last]),
                _ => self.told(edition, &[0, word, 0, 0, 0, 0, last, 0]),
            }
        }
        self.call(refusal);
    }
}

/// Answers by word, and the refusals that came by number.
pub fn write_answers(f: &mut fmt::Formatter, words: &[u64; 6], refusals: &[u64]) -> fmt::Result {
    for (name, number) in WORDS.iter().zip(words) {
        write!(f, " {name} {number}")?;
    }
    write!(f, "; refusals by number")?;
    write_by_number(f, refusals)
}

/// Those that came at all, each behind its number.
pub fn write_by_number(f: &mut fmt::Formatter, counted: &[u64]) -> fmt::Result {
    for (n, number) in counted.iter().enumerate().filter(|(_, number)| **number > 0) {
        write!(f, " {n}: {number}")?;
    }
    Ok(())
}

impl Counts for Tally {
    fn case(&mut self, differs: bool) {
        self.files += 1;
        self.differing += u64::from(differs);
    }

    fn cases(&self) -> (u64, u64) {
        (self.files - self.differing, self.differing)
    }
}

impl fmt::Display for Tally {
    fn fmt(&self, f: &mut fmt::Formatter) -> fmt::Result {
        let Tally { files, differing, calls, queries: [one, two, three], boxes, .. } = self;
        write!(f, "{files} files, {calls} calls, {} queries", one + two + three)?;
        write!(f, " (edition 1: {one}, edition 2: {two}, edition 3: {three}), {boxes} boxes;")?;
        write_answers(f, &self.words, &self.refusals)?;
        let Tally { copies, given, pairs, trailers, written, .. } = self;
        if copies + trailers > 0 {
            write!(f, "; {copies} copies, {trailers} trailers, {written} files written")?;
        }
        if given + pairs > 0 {
            write!(f, "; {given} records from numbers, {pairs} pairs without a file")?;
        }
        if self.logs != [0; 7] {
            let [write, trailer, read, count, matched, whole, told] = self.logs;
            write!(
                f,
                "; answers: {write} written, {read} read, {trailer} trailers, {count} counted,"
            )?;
            write!(f, " {matched} matched, {whole} files answered, {told} told")?;
        }
        write!(f, "; {differing} files differ")
    }
}
