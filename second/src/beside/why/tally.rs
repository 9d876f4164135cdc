//! What a comparison of `why` has gone through.

use crate::beside::progress::Counts;
use crate::beside::tally::write_by_number;
use crate::refusals::Refusal;
use crate::search::Answer;
use crate::told::told;
use crate::told::WORDS;
use crate::why::TOLD;
use std::fmt;

/// A level is the sum of three depths of at most 20.
const DEEPEST_LEVEL: usize = 60;
/// The highest number of a refusal.
const MOST_NUMBER: usize = 24;

#[derive(Clone, Debug)]
pub struct Tally {
    files: u64,
    differing: u64,
    questions: u64,
    /// Points that were ruled out, by the word of the record's answer, by axis and side, and by level.
    words: [u64; WORDS.len()],
    sides: [[u64; 2]; 3],
    levels: [u64; DEEPEST_LEVEL + 1],
    refusals: [u64; MOST_NUMBER + 1],
}

impl Tally {
    /// What a question must be told of a record that has this answer, if it has one.
    pub fn asked(&mut self, answer: Option<&Answer>, must: &Result<[u32; TOLD], Refusal>) {
        self.questions += 1;
        match must {
            Ok([level, .., axis, side]) => {
                self.words[answer.map_or(0, |answer| told(answer)[0] as usize)] += 1;
                self.sides[*axis as usize][*side as usize] += 1;
                self.levels[*level as usize] += 1;
            }
            Err(refusal) => self.refusals[refusal.number() as usize] += 1,
        }
    }
}

impl Default for Tally {
    fn default() -> Tally {
        Tally {
            files: 0,
            differing: 0,
            questions: 0,
            words: [0; WORDS.len()],
            sides: [[0; 2]; 3],
            levels: [0; DEEPEST_LEVEL + 1],
            refusals: [0; MOST_NUMBER + 1],
        }
    }
}

impl Counts for Tally {
    fn case(&mut self, differs: bool) {
        self.files += 1;
        self.differing += u64::from(differs);
    }

    fn cases(&self) -> (u64, u64) {
        (self.files - self.differing, self.differing)
    }
}

impl fmt::Display for Tally {
    fn fmt(&self, f: &mut fmt::Formatter) -> fmt::Result {
        let Tally { files, differing, questions, words, sides, levels, refusals } = self;
        write!(f, "{files} files, {questions} questions; ruled out under")?;
        // A refused record rules nothing out.
        for (name, number) in WORDS.iter().zip(words).skip(1) {
            write!(f, " {name} {number}")?;
        }
        write!(f, "; on")?;
        for (axis, [below, above]) in ["x", "y", "z"].iter().zip(sides) {
            write!(f, " {axis}- {below} {axis}+ {above}")?;
        }
        write!(f, "; by level")?;
        write_by_number(f, levels)?;
        write!(f, "; refusals by number")?;
        write_by_number(f, refusals)?;
        write!(f, "; {differing} files differ")
    }
}
