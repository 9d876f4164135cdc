//! The comparison of `why`: points of every sort, asked of some records with queues of every length.

mod points;
pub mod program;
pub mod tally;

use super::buffers::{Lent, Shifted};
use super::judged::{differences, Must};
use super::places::{absent, some};
use super::{Case, Library, LONG};
use crate::file::{open, record_at, record_number};
use crate::refusals::Refusal;
use crate::rng::Rng;
use crate::why::{Parts, Searched, TOLD};
use points::Points;
use tally::Tally;

/// Records of a file that are asked about, and queue lengths tried on each.
const RECORDS: usize = 12;
const LENGTHS: usize = 4;
/// Points asked about with each, and more for each level that rules some out; a long queue takes too long for more.
const POINTS: usize = 2;
const OF_A_LEVEL: usize = 4;

/// Asks the library about one case; what differs from the second program, a line each.
pub fn compare(library: &Library, case: &Case, tally: &mut Tally) -> Vec<String> {
    let mut rng = Rng::new(case.seed, &format!("why {}", case.flavour));
    let file = Shifted::new(&mut rng, &case.file);
    let mut asker = Asker { library, file, tally, rng, differences: Vec::new() };
    for n in records(&mut asker.rng, case, RECORDS) {
        for words in some(&mut asker.rng, &case.words, LENGTHS) {
            asker.record(n, words);
        }
    }
    asker.differences
}

/// Numbers of some records, and of one that is not there.
fn records(rng: &mut Rng, case: &Case, number: usize) -> Vec<usize> {
    let count = open(&case.file).map_or(0, |opened| opened.count as usize);
    let absent = absent(rng, count);
    let present = (0..number.min(count)).map(|_| rng.below(count));
    present.chain([absent]).collect()
}

/// A point that fits what was searched, or any where the record was refused.
fn drawn(rng: &mut Rng, points: Option<&Points>) -> Parts {
    match points {
        Some(points) => points.draw(rng),
        None => points::any(rng),
    }
}

/// The questions of one case.
struct Asker<'a> {
    library: &'a Library,
    file: Shifted,
    tally: &'a mut Tally,
    rng: Rng,
    differences: Vec<String>,
}

/// What is asked and what is lent.
struct Question {
    n: usize,
    point: Parts,
    words: usize,
    lent: usize,
}

impl Asker<'_> {
    /// One record with one length of queue; one search by the second program serves all points.
    fn record(&mut self, n: usize, words: usize) {
        let record = record_at(self.file.bytes(), record_number(n));
        let searched = record.and_then(|(record, range)| Searched::of(&record, range, words));
        let searched = searched.as_ref().map_err(|refusal| *refusal);
        let points = searched.ok().map(Points::of);
        let levels = points.as_ref().filter(|_| words <= LONG).map_or(0, Points::levels);
        for _ in 0..POINTS + OF_A_LEVEL * levels {
            let point = drawn(&mut self.rng, points.as_ref());
            let short = self.rng.below(TOLD);
            let lent = self.rng.pick(&[TOLD, TOLD, TOLD, TOLD, TOLD + 1, TOLD + 8, short]);
            let question = Question { n, point, words, lent };
            let must = searched.and_then(|searched| searched.tell(point, lent));
            self.tally.asked(searched.ok().map(|searched| &searched.answer), &must);
            self.ask(&question, must);
        }
    }

    fn ask(&mut self, question: &Question, must: Result<[u32; TOLD], Refusal>) {
        let Question { n, point, words, lent } = *question;
        let mut queue = Lent::new(self.rng.draw(), words);
        let mut told = Lent::new(self.rng.draw(), lent);
        let code = self.library.why(self.file.bytes(), n, point, queue.slice(), told.slice());
        // 24 refuses the question and not the query, which the search has answered by then.
        let answered = matches!(must, Ok(_) | Err(Refusal::NotRuledOut));
        let must = must.map(Vec::from).map_err(Refusal::number);
        let must = Must { told: &must, answered };
        let [t, u, v] = point;
        let call =
            format!("taperhive_why, record {n} at {t} {u} {v}, {words} words, told of {lent}");
        self.differences.extend(differences(&call, code, &must, &queue, &told));
    }
}
