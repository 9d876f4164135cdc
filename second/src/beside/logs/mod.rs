//! The answer file beside the library: answers written, read, counted and matched, and whole query files answered.

mod calls;
mod drawn;
mod matching;
pub mod program;
pub mod whole;
mod writing;

use super::buffers::{After, Lent, Shifted};
use super::places::{absent, some};
use super::tally::{LogCall, Tally};
use super::{Case, Library};
use crate::answer_file::{file_of, open, read};
use crate::file::record_number;
use crate::refusals::Refusal;
use crate::rng::Rng;
use crate::told::Told;

/// Answers of a file that is read, at most, and damaged ones of it that are tried.
const ANSWERS: usize = 6;
const DAMAGED: usize = 24;
/// A file of as many answers as it may hold takes long: one case in so many.
const SELDOM: usize = 32;
/// Numbers told of one answer.
const TOLD: usize = 8;

/// Puts answers through the library's functions; what differs, a line each.
pub fn compare(library: &Library, case: &Case, tally: &mut Tally) -> Vec<String> {
    let rng = Rng::new(case.seed, &format!("answers {}", case.flavour));
    let mut logs = Logs { library, tally, rng, differences: Vec::new() };
    logs.writes();
    logs.trailers();
    logs.reads();
    logs.matches(&case.file);
    logs.differences
}

struct Logs<'a> {
    library: &'a Library,
    tally: &'a mut Tally,
    rng: Rng,
    differences: Vec<String>,
}

impl Logs<'_> {
    /// A whole file, and damaged ones.
    fn reads(&mut self) {
        let rng = &mut self.rng;
        let number = rng.below(ANSWERS + 1);
        let answers: Vec<Told> = (0..number).map(|_| drawn::any(rng)).collect();
        let whole = drawn::log(rng, &answers);
        let mut damaged = drawn::every_byte_changed(rng, &whole);
        damaged.extend(drawn::other_trailers(rng, &whole));
        damaged.extend(drawn::cut(rng, &whole));
        let places: Vec<usize> = (0..damaged.len()).collect();
        for place in some(rng, &places, DAMAGED) {
            self.counts(&damaged[place]);
            let n = self.rng.below(number + 1);
            self.read(&damaged[place], n);
        }
        self.counts(&whole);
        (0..number).for_each(|n| self.read(&whole, n));
        let absent = absent(&mut self.rng, number);
        self.read(&whole, absent);
        if self.rng.one_in(SELDOM) {
            self.reads_of_most();
        }
    }

    /// Of as many answers as a file may hold, and of one more.
    fn reads_of_most(&mut self) {
        let answers: Vec<Told> = (0..4096).map(|_| drawn::any(&mut self.rng)).collect();
        let most = file_of(&answers);
        [0, 4095, 4096].into_iter().for_each(|n| self.read(&most, n));
        self.counts(&most);
        self.counts(&file_of(&[&answers[..], &answers[..1]].concat()));
    }

    /// Record n, with room for eight numbers, for more and for fewer.
    fn read(&mut self, log: &[u8], n: usize) {
        let log = Shifted::new(&mut self.rng, log);
        let lent = self.rng.pick(&[TOLD + 1, 2 * TOLD]);
        let few = self.rng.pick(&[TOLD - 1, TOLD - 1, 1, 0]);
        for lent in [TOLD, lent, few] {
            let must = read(log.bytes(), record_number(n)).and_then(|told| room(told.into(), lent));
            let mut told: Lent<u32> = Lent::new(self.rng.draw(), lent);
            let code = self.library.log_read(log.bytes(), n, told.slice());
            let call = format!("taperhive_log_read, record {n}, told of {lent}");
            self.judge_told(LogCall::Read, &call, code, must, &told);
        }
    }

    /// How many there are, with room for that number and with none.
    fn counts(&mut self, log: &[u8]) {
        let log = Shifted::new(&mut self.rng, log);
        for lent in [1, 2, 0] {
            let must = open(log.bytes()).and_then(|opened| room(vec![opened.count], lent));
            let mut told: Lent<u32> = Lent::new(self.rng.draw(), lent);
            let code = self.library.log_count(log.bytes(), told.slice());
            let call = format!("taperhive_log_count, room for {lent}");
            self.judge_told(LogCall::Count, &call, code, must, &told);
        }
    }

    fn judge_told(
        &mut self,
        kind: LogCall,
        call: &str,
        code: u32,
        must: Result<Vec<u32>, Refusal>,
        told: &Lent<u32>,
    ) {
        self.judge_code(kind, call, code, must.as_ref().map(|_| ()).map_err(|refusal| *refusal));
        let after = must.as_ref().map_or(After::AsFound, |numbers| After::Begins(numbers));
        if let Some(difference) = told.difference(&after) {
            self.differences.push(format!("{call}: told's {difference}"));
        }
    }

    /// Every byte of a buffer and around it.
    fn judge_bytes(&mut self, call: &str, lent: &Lent<u8>, must: &[u8]) {
        if let Some(difference) = lent.difference(&After::Begins(must)) {
            self.differences.push(format!("{call}: the buffer's {difference}"));
        }
    }

    fn judge_code(&mut self, kind: LogCall, call: &str, code: u32, must: Result<(), Refusal>) {
        let number = must.map_or_else(Refusal::number, |()| 0);
        self.tally.log(kind, number);
        if code != number {
            self.differences.push(format!("{call}: returned {code} and must return {number}"));
        }
    }
}

/// The numbers where so many are lent, or 14.
fn room(numbers: Vec<u32>, lent: usize) -> Result<Vec<u32>, Refusal> {
    if lent < numbers.len() {
        return Err(Refusal::Space);
    }
    Ok(numbers)
}
