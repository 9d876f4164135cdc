//! The comparison with the proved code. The second program uses nothing of it.

pub mod bodies;
mod buffers;
mod expected;
pub mod functions;
pub mod given;
mod judged;
mod library;
#[cfg(feature = "beside")]
pub mod linked;
pub mod logs;
mod places;
pub mod process;
mod progress;
pub mod report;
pub mod tally;
pub mod walk;
pub mod why;
pub mod writing;

pub use expected::Expected;
pub use library::Library;

use crate::edition::Edition;
use crate::file::{open, MARK, TRAILER_BYTES};
use crate::gen::{flavours, generate, words::words};
use crate::rng::Rng;
use crate::text::SWEEP_WORDS;
use library::Caller;
use report::Again;
use tally::Tally;

/// A queue longer than this is tried on few files: filling and looking at it takes long.
const LONG: usize = 65_536;
/// A file of more bytes than this gets few queue lengths.
const CROWD: usize = 70_000;
const FEW: usize = 5;

/// A generated file and the queue lengths to try on it.
pub struct Case {
    pub seed: u64,
    pub flavour: &'static str,
    pub file: Vec<u8>,
    pub words: Vec<usize>,
}

impl Case {
    /// Nothing where there is no such flavour.
    pub fn new(seed: u64, flavour: &str) -> Option<Case> {
        let flavour = flavours().into_iter().find(|name| *name == flavour)?;
        let (file, words) = (generate(seed, flavour)?, words(seed, flavour)?);
        let mut case = Case { seed, flavour, file, words };
        case.thin_out();
        Some(case)
    }

    /// Of the file, or 1 where it is none that can be opened: nothing is told of its records.
    pub fn edition(&self) -> Edition {
        open(&self.file).map_or(Edition::One, |opened| opened.edition)
    }

    /// The same records as the other one of editions 2 and 3, which have the same bytes and each its own range.
    pub fn twin(&self) -> Option<Case> {
        let other = match open(&self.file).ok()?.edition {
            Edition::One => return None,
            Edition::Two => Edition::Three,
            Edition::Three => Edition::Two,
        };
        let mut file = self.file.clone();
        let place = file.len() - TRAILER_BYTES + MARK.len();
        file[place] = other.number();
        Some(Case { seed: self.seed, flavour: self.flavour, file, words: vec![SWEEP_WORDS] })
    }

    /// Keeps a crowd's lengths few, and the longest to one file in four.
    fn thin_out(&mut self) {
        let mut rng = Rng::new(self.seed, self.flavour);
        if !rng.one_in(4) {
            self.words.retain(|words| *words <= LONG);
        }
        while self.file.len() > CROWD && self.words.len() > FEW {
            self.words.remove(rng.below(self.words.len()));
        }
    }
}

impl Again for Case {
    fn drawn_by(&self) -> (u64, &'static str, &[usize]) {
        (self.seed, self.flavour, &self.words)
    }

    fn contents(&self) -> (&'static str, Vec<u8>) {
        ("queries", self.file.clone())
    }
}

/// Puts one case through the library, and its records in the other range; what differs, a line each.
pub fn compare(library: &Library, case: &Case, tally: &mut Tally) -> Vec<String> {
    let mut differences = answers(library, case, tally);
    if let Some(twin) = case.twin() {
        let of_twin = answers(library, &twin, tally);
        let edition = twin.edition().number();
        differences.extend(of_twin.iter().map(|line| format!("as edition {edition}: {line}")));
    }
    differences.extend(writing::compare(library, case, tally));
    differences.extend(given::compare(library, case, tally));
    differences.extend(logs::compare(library, case, tally));
    differences
}

/// Every call that answers.
fn answers(library: &Library, case: &Case, tally: &mut Tally) -> Vec<String> {
    let mut caller = Caller::new(library, case, tally);
    caller.count();
    let mut last: Option<Expected> = None;
    for words in &case.words {
        // Equal halves have equal answers, so that one search by the second program serves both.
        let expected = match last {
            Some(last) if last.serves(*words) => last,
            _ => Expected::of(&case.file, *words),
        };
        caller.answers(*words, &expected);
        caller.single_answers(*words, &expected);
        caller.logs(*words, &expected);
        last = Some(expected);
    }
    caller.differences
}
