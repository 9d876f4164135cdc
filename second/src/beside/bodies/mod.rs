//! The comparison of two bodies: calls of the library on dirty buffers of every length.

pub mod bounds;
pub mod tally;

use super::buffers::{After, Lent};
use super::expected::SPACE;
use super::judged::{differences, Must};
use super::report::Again;
use super::Library;
use crate::bodies::{answer, told, Bodies, BodiesAnswer, Body, Least, QUERIES};
use crate::gen::bodies::{flavours, generate, words::words, Drawn};
use crate::refusals::Refusal;
use crate::rng::Rng;
use tally::Tally;

/// Numbers told of two bodies.
const TOLD: usize = 8;
const LISTS: [&str; 4] = ["A at the start", "A at the end", "B at the start", "B at the end"];

/// Two generated bodies and the queue lengths to try on them.
pub struct Case {
    pub seed: u64,
    pub flavour: &'static str,
    pub drawn: Drawn,
    pub words: Vec<usize>,
}

impl Case {
    /// Nothing where there is no such flavour.
    pub fn new(seed: u64, flavour: &str) -> Option<Case> {
        let flavour = flavours().into_iter().find(|name| *name == flavour)?;
        let drawn = generate(seed, flavour)?;
        let words = words(seed, flavour, &drawn);
        Some(Case { seed, flavour, drawn, words })
    }

    /// By the second program, one for each queue length.
    pub fn answers(&self) -> Vec<BodiesAnswer> {
        self.words.iter().map(|words| answer(&self.drawn.bodies(), *words)).collect()
    }
}

impl Again for Case {
    fn drawn_by(&self) -> (u64, &'static str, &[usize]) {
        (self.seed, self.flavour, &self.words)
    }

    /// Every number, a line each for what all queries share and for the four lists.
    fn contents(&self) -> (&'static str, Vec<u8>) {
        let Drawn { edition, separations, tolerance, budget, counts: [a, b], .. } = self.drawn;
        let mut text = format!("edition {edition}, separations {separations:?}, ");
        text += &format!("tolerance {tolerance}, budget {budget}\n");
        text += &format!("{a} triangles of A, {b} triangles of B\n");
        for (name, list) in LISTS.iter().zip(self.drawn.positions.as_flattened()) {
            text += &format!("{name}, {} numbers: {list:?}\n", list.len());
        }
        ("bodies", text.into_bytes())
    }
}

/// Puts one case through the library; what differs from the second program, a line each.
pub fn compare(library: &Library, case: &Case, tally: &mut Tally) -> Vec<String> {
    let answers = case.answers();
    let mut differences = compare_with(library, case, &answers, tally);
    differences.extend(bounds::compare_with(library, case, &answers, tally));
    differences
}

/// The same of `taperhive_bodies` alone, where the answers are known.
pub fn compare_with(
    library: &Library,
    case: &Case,
    answers: &[BodiesAnswer],
    tally: &mut Tally,
) -> Vec<String> {
    let mut caller = Caller::new(library, case, tally);
    for (words, answer) in case.words.iter().zip(answers) {
        let enough = TOLD + caller.rng.pick(&[0, 0, 1, 8]);
        caller.call(*words, enough, answer);
        let short = caller.rng.below(TOLD);
        caller.call(*words, short, answer);
    }
    caller.differences
}

/// The lists of positions as they are lent: among words that are no coordinates, so that a look beyond them is no sound one.
struct Positions<'a> {
    drawn: &'a Drawn,
    lists: Vec<Lent<i32>>,
}

impl<'a> Positions<'a> {
    fn new(rng: &mut Rng, drawn: &'a Drawn) -> Positions<'a> {
        let lists = drawn.positions.as_flattened().iter();
        Positions { drawn, lists: lists.map(|list| Lent::holding(rng.draw(), list)).collect() }
    }

    /// The bodies as they are lent.
    fn bodies(&self) -> Bodies<'_> {
        let body = |side: usize| {
            let [start, end] = [0, 1].map(|end| self.lists[2 * side + end].read());
            Body { count: self.drawn.counts[side], start, end }
        };
        Bodies { a: body(0), b: body(1), ..self.drawn.bodies() }
    }

    /// What a call has changed, a line each.
    fn changes(&self, call: &str) -> Vec<String> {
        let drawn = self.drawn.positions.as_flattened();
        let lists = self.lists.iter().zip(drawn).zip(LISTS);
        let change = |((lent, list), name): ((&Lent<i32>, &Vec<i32>), &str)| {
            let difference = lent.difference(&After::Begins(list))?;
            Some(format!("{call}: {name}, {difference}"))
        };
        lists.filter_map(change).collect()
    }
}

/// What must be told, or the number that refuses, with room for so many numbers.
fn must_tell(answer: &BodiesAnswer, lent: usize) -> Result<Vec<u32>, u32> {
    let must = told(answer).map(Vec::from).map_err(Refusal::number);
    must.and_then(|told| if lent < TOLD { Err(SPACE) } else { Ok(told) })
}

/// The calls of one case.
struct Caller<'a> {
    library: &'a Library,
    positions: Positions<'a>,
    tally: &'a mut Tally,
    rng: Rng,
    differences: Vec<String>,
}

impl<'a> Caller<'a> {
    fn new(library: &'a Library, case: &'a Case, tally: &'a mut Tally) -> Caller<'a> {
        let mut rng = Rng::new(case.seed, &format!("calls {}", case.flavour));
        let positions = Positions::new(&mut rng, &case.drawn);
        Caller { library, positions, tally, rng, differences: Vec::new() }
    }

    fn call(&mut self, words: usize, lent: usize, answer: &BodiesAnswer) {
        let mut queue = Lent::new(self.rng.draw(), words);
        let mut numbers = Lent::new(self.rng.draw(), lent);
        let bodies = self.positions.bodies();
        let code = self.library.bodies(&bodies, queue.slice(), numbers.slice());
        let must = must_tell(answer, lent);
        self.tally.call(bodies.edition);
        match must {
            Err(number) => self.tally.refused(number),
            Ok(_) => self.tally.answered(asked(&bodies, answer), answer),
        }
        let edition = bodies.edition;
        let call = format!("taperhive_bodies, edition {edition}, {words} words, told of {lent}");
        let must = Must { answered: must.is_ok(), told: &must };
        self.differences.extend(differences(&call, code, &must, &queue, &numbers));
        self.differences.extend(self.positions.changes(&call));
    }
}

/// Queries of a walk that comes to this answer: up to a time of 0, else all.
fn asked(bodies: &Bodies, answer: &BodiesAnswer) -> u64 {
    let [of_a, of_b] = [bodies.a, bodies.b].map(|body| body.count as u64);
    let queries = |pairs: u64| pairs * u64::from(QUERIES);
    match *answer {
        BodiesAnswer::Least(Least { t: 0, a, b, query, .. }) => {
            queries(u64::from(a) * of_b + u64::from(b)) + u64::from(query)
        }
        _ => queries(of_a * of_b),
    }
}
