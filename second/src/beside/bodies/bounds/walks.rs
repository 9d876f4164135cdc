//! Walks that are lent lists of bounds, true ones and others.

use super::super::tally::Tally;
use super::super::{must_tell, Case, Positions, TOLD};
use super::list;
use super::untrue::{untrue, Lists};
use crate::beside::buffers::{After, Lent};
use crate::beside::judged::{differences, Must};
use crate::beside::Library;
use crate::bodies::bounds::{apart, bounded, BLOCK, BOUND};
use crate::bodies::{answer, Bodies, BodiesAnswer, Least, QUERIES};
use crate::rng::Rng;

/// Pairs of triangles up to which a case is walked in the other range too, in one case of so many.
const FEW_PAIRS: usize = 40;
const OTHER_RANGE_OF: usize = 3;

/// One case, whose answers without bounds are known; what differs, a line each.
pub fn compare(
    library: &Library,
    case: &Case,
    answers: &[BodiesAnswer],
    tally: &mut Tally,
) -> Vec<String> {
    let mut rng = Rng::new(case.seed, &format!("walks {}", case.flavour));
    let positions = Positions::new(&mut rng, &case.drawn);
    let bodies = positions.bodies();
    let lists = [bodies.a, bodies.b].map(|body| list(&mut rng, bodies.edition, &body));
    let mut walks = Walks { library, positions: &positions, tally, rng, differences: Vec::new() };
    for (words, answer) in case.words.iter().zip(answers) {
        walks.by_true_lists(&bodies, &lists, *words, answer);
    }
    // A queue by which they are answered, where there is one, and one by which they are refused.
    let is_refused = |answer: &&BodiesAnswer| matches!(answer, BodiesAnswer::Refused(_));
    let answered = answers.iter().position(|answer| !is_refused(&answer)).unwrap_or(0);
    walks.by_untrue_lists(&bodies, &lists, case.words[answered], &answers[answered]);
    if let Some(refused) = answers.iter().position(|answer| is_refused(&answer)) {
        walks.by_an_untrue_list(&bodies, &lists, case.words[refused], &answers[refused]);
    }
    walks.in_the_other_range(&bodies, &lists, case.words[answered]);
    walks.differences
}

struct Walks<'a> {
    library: &'a Library,
    positions: &'a Positions<'a>,
    tally: &'a mut Tally,
    rng: Rng,
    differences: Vec<String>,
}

impl Walks<'_> {
    /// With room enough, and with too little.
    fn by_true_lists(
        &mut self,
        bodies: &Bodies,
        lists: &Lists,
        words: usize,
        plain: &BodiesAnswer,
    ) {
        let enough = TOLD + self.rng.pick(&[0, 0, 1, 8]);
        let short = self.rng.below(TOLD);
        [enough, short].into_iter().for_each(|lent| self.call(bodies, lists, words, lent, plain));
    }

    fn by_untrue_lists(
        &mut self,
        bodies: &Bodies,
        lists: &Lists,
        words: usize,
        plain: &BodiesAnswer,
    ) {
        for untrue in untrue(&mut self.rng, lists) {
            let lent = self.rng.pick(&[TOLD, TOLD, TOLD + 3, TOLD - 1, 0]);
            self.call(bodies, &untrue, words, lent, plain);
        }
    }

    /// Where the queries are refused: their number goes before that of the list.
    fn by_an_untrue_list(
        &mut self,
        bodies: &Bodies,
        lists: &Lists,
        words: usize,
        plain: &BodiesAnswer,
    ) {
        let all = untrue(&mut self.rng, lists);
        let place = self.rng.below(all.len());
        self.call(bodies, &all[place], words, TOLD, plain);
    }

    /// The same lists with an edition of the other range, whose answer is worked out for it.
    fn in_the_other_range(&mut self, bodies: &Bodies, lists: &Lists, words: usize) {
        let pairs = bodies.a.count.saturating_mul(bodies.b.count);
        if pairs > FEW_PAIRS || !self.rng.one_in(OTHER_RANGE_OF) {
            return;
        }
        let edition = if bodies.edition == 3 { self.rng.pick(&[1, 2]) } else { 3 };
        let other = Bodies { edition, ..*bodies };
        self.call(&other, lists, words, TOLD, &answer(&other, words));
    }

    fn call(
        &mut self,
        bodies: &Bodies,
        lists: &Lists,
        words: usize,
        lent: usize,
        plain: &BodiesAnswer,
    ) {
        let mut queue = Lent::new(self.rng.draw(), words);
        let mut numbers = Lent::new(self.rng.draw(), lent);
        let [a, b] = lists.each_ref().map(|list| Lent::holding(self.rng.draw(), list));
        let read = [a.read(), b.read()];
        let code = self.library.walk(bodies, read, queue.slice(), numbers.slice());
        let answer = bounded(*plain, bodies, read);
        let must = must_tell(&answer, lent);
        let passed = |_: &Vec<u32>| passed_over(bodies, read, &answer);
        self.tally.walked(must.as_ref().map(passed).map_err(|number| *number));
        let edition = bodies.edition;
        let call = format!(
            "taperhive_walk, edition {edition}, {words} words, told of {lent}, bounds {read:?}"
        );
        let must = Must { answered: must.is_ok(), told: &must };
        self.differences.extend(differences(&call, code, &must, &queue, &numbers));
        self.differences.extend(self.positions.changes(&call));
        for (lent, list, name) in [(&a, &lists[0], "A"), (&b, &lists[1], "B")] {
            if let Some(difference) = lent.difference(&After::Begins(list)) {
                self.differences.push(format!("{call}: the bounds of {name}, {difference}"));
            }
        }
    }
}

/// Queries that a walk which comes to this answer may pass over by true lists.
fn passed_over(bodies: &Bodies, [of_a, of_b]: [&[i32]; 2], answer: &BodiesAnswer) -> u64 {
    let end = match *answer {
        BodiesAnswer::Least(Least { t: 0, a, b, .. }) => (a as usize, b as usize),
        _ => (bodies.a.count, 0),
    };
    let is_passed = |a: usize, b: usize| {
        (a, b) < end && apart(entry(of_a, a), entry(of_b, b), bodies.separations)
    };
    let passed = |a: usize| (0..bodies.b.count).filter(|b| is_passed(a, *b)).count() as u64;
    (0..bodies.a.count).map(passed).sum::<u64>() * u64::from(QUERIES)
}

/// The bound of the block that a triangle is in.
fn entry(list: &[i32], triangle: usize) -> &[i32] {
    &list[BOUND * (triangle / BLOCK)..][..BOUND]
}
