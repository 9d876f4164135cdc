//! What a comparison of bodies has gone through.

use crate::beside::progress::Counts;
use crate::beside::tally::write_answers;
use crate::bodies::{BodiesAnswer, Least};
use crate::edition::Edition;
use std::fmt;

/// The highest number of a refusal.
const MOST_NUMBER: usize = 27;

#[derive(Clone, Debug, Default)]
pub struct Tally {
    cases: u64,
    differing: u64,
    /// Calls of editions 1, 2 and 3, and of a number that is none's.
    calls: [u64; Edition::ALL.len() + 1],
    /// Queries of the walks that were compared.
    queries: u64,
    boxes: u64,
    /// Answers by word, refused calls first.
    words: [u64; 6],
    refusals: [u64; MOST_NUMBER + 1],
    /// Walks that are lent bounds, and queries that those which were answered may pass over.
    walks: u64,
    passed_over: u64,
    /// Lists of bounds worked out, and triangles replaced.
    lists: u64,
    replaced: u64,
}

impl Tally {
    /// A call with this edition.
    pub fn call(&mut self, edition: u8) {
        let place = Edition::ALL.iter().position(|known| known.number() == edition);
        self.calls[place.unwrap_or(Edition::ALL.len())] += 1;
    }

    /// The number that refuses a call.
    pub fn refused(&mut self, number: u32) {
        self.words[0] += 1;
        self.refusals[number as usize] += 1;
    }

    /// The answer to a call, by a walk of so many queries.
    pub fn answered(&mut self, queries: u64, answer: &BodiesAnswer) {
        let (word, boxes) = match *answer {
            BodiesAnswer::Clear { count } => (2, count),
            BodiesAnswer::Least(Least { word, count, .. }) => (word as usize, count),
            BodiesAnswer::Refused(_) => return,
        };
        self.queries += queries;
        self.boxes += boxes;
        self.words[word] += 1;
    }

    /// A walk that is lent bounds, with the queries that it may pass over, or the number that refuses it.
    pub fn walked(&mut self, passed_over: Result<u64, u32>) {
        self.walks += 1;
        match passed_over {
            Ok(queries) => self.passed_over += queries,
            Err(number) => self.refusals[number as usize] += 1,
        }
    }

    /// A list of bounds worked out, and the number that refuses it, or 0.
    pub fn listed(&mut self, number: u32) {
        self.lists += 1;
        self.count_refusal(number);
    }

    /// The same of a triangle replaced.
    pub fn replaced(&mut self, number: u32) {
        self.replaced += 1;
        self.count_refusal(number);
    }

    fn count_refusal(&mut self, number: u32) {
        if number != 0 {
            self.refusals[number as usize] += 1;
        }
    }
}

impl Counts for Tally {
    fn case(&mut self, differs: bool) {
        self.cases += 1;
        self.differing += u64::from(differs);
    }

    fn cases(&self) -> (u64, u64) {
        (self.cases - self.differing, self.differing)
    }
}

impl fmt::Display for Tally {
    fn fmt(&self, f: &mut fmt::Formatter) -> fmt::Result {
        let Tally { cases, differing, calls: [one, two, three, none], queries, boxes, .. } = self;
        write!(f, "{cases} cases, {} calls", one + two + three + none)?;
        write!(f, " (edition 1: {one}, edition 2: {two}, edition 3: {three}, none: {none})")?;
        write!(f, ", {queries} queries, {boxes} boxes;")?;
        write_answers(f, &self.words, &self.refusals)?;
        let Tally { walks, passed_over, lists, replaced, .. } = self;
        write!(f, "; {walks} walks with bounds, {passed_over} queries passed over")?;
        write!(f, ", {lists} lists of bounds, {replaced} triangles replaced")?;
        write!(f, "; {differing} cases differ")
    }
}
