//! The walk of the stub from query to query, right or with one fault.

use super::Fault;
use second::bodies::{Asked, BodiesAnswer, Least};
use second::record::Record;
use second::search::Answer;
use second::told::told;

/// What a walk has come to so far.
#[derive(Default)]
struct SoFar {
    sum: u64,
    least: Option<Least>,
    /// The least time at the beginning of the pair, and the first time of all.
    at_the_pair: Option<u32>,
    first: Option<u32>,
}

/// What the walk comes to, and the answers to the queries that it asks.
pub fn walked(
    fault: Fault,
    queries: &[Asked],
    ask: impl Fn(&Record) -> Answer,
) -> (BodiesAnswer, Vec<Answer>) {
    let (mut so_far, mut answers) = (SoFar::default(), Vec::new());
    for asked in queries {
        if asked.query == 1 {
            so_far.at_the_pair = so_far.time();
        }
        if so_far.is_over(fault, asked) {
            break;
        }
        let answer = ask(&Record { cap: so_far.cap(fault), ..asked.record });
        so_far.hear(fault, asked, &answer);
        answers.push(answer);
    }
    let SoFar { sum: count, least, .. } = so_far;
    let answer = match least {
        Some(least) => BodiesAnswer::Least(Least { count, ..least }),
        None => BodiesAnswer::Clear { count },
    };
    (answer, answers)
}

impl SoFar {
    fn time(&self) -> Option<u32> {
        self.least.map(|least| least.t)
    }

    /// True where the walk ends before this query.
    fn is_over(&self, fault: Fault, asked: &Asked) -> bool {
        match fault {
            Fault::EndsAtTheFirstTime => self.least.is_some(),
            Fault::GoesOnAfterTimeZero => false,
            Fault::EndsBehindThePair => self.time() == Some(0) && asked.query == 1,
            Fault::EndsWithTheTriangle => {
                self.time() == Some(0) && (asked.b, asked.query) == (0, 1)
            }
            _ => self.time() == Some(0),
        }
    }

    fn cap(&self, fault: Fault) -> u32 {
        let time = match fault {
            Fault::WalkUncapped => None,
            Fault::CapOfThePairBefore => self.at_the_pair,
            Fault::CapOfTheFirstTime => self.first,
            Fault::CapAPartLess => self.time().map(|t| t.saturating_sub(1)),
            Fault::CapAPartMore => self.time().map(|t| t + 1),
            _ => self.time(),
        };
        time.unwrap_or(0)
    }

    fn hear(&mut self, fault: Fault, asked: &Asked, answer: &Answer) {
        let time = answer.corner().map(|corner| corner.t);
        let uncounted = match fault {
            Fault::TimeZeroNotCounted => time == Some(0),
            Fault::EqualTimeNotCounted => time.is_some() && time == self.time(),
            _ => false,
        };
        self.sum += u64::from(if uncounted { 0 } else { answer.count() });
        let Some(t) = time else { return };
        self.first = self.first.or(Some(t));
        let takes_over = |least: Least| match fault {
            Fault::LaterOfEqualNamed => t <= least.t,
            _ => t < least.t,
        };
        if self.least.is_none_or(takes_over) {
            let [word, _, _, _, excess, ..] = told(answer);
            let Asked { a, b, query, .. } = *asked;
            self.least = Some(Least { word, t, a, b, query, excess, count: 0 });
        }
    }
}
