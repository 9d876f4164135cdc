//! The walk of the stub that passes blocks over.

use super::listed::list;
use super::{is_body, Fault};
use crate::stub::bodies::{refused::refused, Fault as OfBodies};
use second::beside::functions::WalkArguments;
use second::bodies::{told, Asked, Bodies, BodiesAnswer, Body, Least, NUMBERS};
use second::edition::Range;
use second::record::Record;
use second::search::search;
use std::slice::{from_raw_parts, from_raw_parts_mut};

/// Triangles of a block, and queries of a pair.
const BLOCK: usize = 32;
const QUERIES: u64 = 15;

pub unsafe fn called(fault: Fault, range: Range, of: WalkArguments) -> u32 {
    let body = |count, start, start_len, end, end_len| {
        let (start, end) = (from_raw_parts(start, start_len), from_raw_parts(end, end_len));
        Body { count, start, end }
    };
    let a = body(of.a_count, of.a_start, of.a_start_len, of.a_end, of.a_end_len);
    let b = body(of.b_count, of.b_start, of.b_start_len, of.b_end, of.b_end_len);
    let WalkArguments { edition, dx, dy, dz, tolerance, budget, .. } = of;
    let bodies = Bodies { edition, a, b, separations: [dx, dy, dz], tolerance, budget };
    let lists = [
        from_raw_parts_mut(of.a_bounds.cast_mut(), of.a_bounds_len),
        from_raw_parts_mut(of.b_bounds.cast_mut(), of.b_bounds_len),
    ];
    let queue = from_raw_parts_mut(of.queue, of.queue_len);
    let lent = from_raw_parts_mut(of.told, of.told_len);
    walked(fault, range, &bodies, lists, queue, lent)
}

fn walked(
    fault: Fault,
    range: Range,
    bodies: &Bodies,
    lists: [&mut [i32]; 2],
    queue: &mut [u64],
    lent: &mut [u32],
) -> u32 {
    let own = refused(OfBodies::None, bodies, range, queue.len());
    let own = own.map_or(0, |refusal| refusal.number());
    let (untrue, short) = (!are_true(fault, range, bodies, &lists), lent.len() < 8);
    let (bounds, space) = (if untrue { 27 } else { 0 }, if short { 14 } else { 0 });
    let in_order = match fault {
        Fault::BoundsBeforeQueries if ![10, 21].contains(&own) => [bounds, own, space],
        Fault::BoundsBeforeBody if own == 21 => [bounds, own, space],
        Fault::SpaceBeforeBounds => [own, space, bounds],
        _ => [own, bounds, space],
    };
    let number = in_order.into_iter().find(|number| *number != 0).unwrap_or(0);
    if number == 27 {
        spoil(fault, range, bodies, lists, queue, lent);
    }
    if number != 0 {
        return number;
    }
    let mut walk = Walk::new(fault, range, bodies, queue.len());
    walk.run();
    lent[..8].copy_from_slice(&told(&walk.answer()).expect("an answer"));
    if fault != Fault::QueueLeftWhereAllPassed || walk.asked {
        queue.fill(0);
    }
    0
}

/// What a walk that is refused for its bounds changes.
fn spoil(
    fault: Fault,
    range: Range,
    bodies: &Bodies,
    [of_a, _]: [&mut [i32]; 2],
    queue: &mut [u64],
    lent: &mut [u32],
) {
    match fault {
        Fault::QueueClearedOnBounds => queue.fill(0),
        Fault::ToldWrittenOnBounds => lent.iter_mut().take(1).for_each(|word| *word ^= 1),
        Fault::ListMended if is_body(&bodies.a) => {
            let right = list(Fault::None, range, &bodies.a);
            of_a.iter_mut().zip(right).for_each(|(place, number)| *place = number);
        }
        _ => {}
    }
}

/// True where the fault takes the lists for those of the bodies.
fn are_true(fault: Fault, range: Range, bodies: &Bodies, lists: &[&mut [i32]; 2]) -> bool {
    let is_true = |body: &Body, lent: &[i32]| {
        let right = if is_body(body) { list(Fault::None, range, body) } else { Vec::new() };
        let prefix = |lent: &[i32]| right.starts_with(lent);
        let same_but = |is_left: fn(usize) -> bool| {
            let mut pairs = lent.iter().zip(&right).enumerate();
            lent.len() == right.len() && pairs.all(|(n, (is, must))| is == must || is_left(n))
        };
        let by_side = |least: fn(i32, i32) -> bool, greatest: fn(i32, i32) -> bool| {
            let mut pairs = lent.iter().zip(&right).enumerate();
            let holds = |n: usize| if n % 6 < 3 { least } else { greatest };
            lent.len() == right.len() && pairs.all(|(n, (is, must))| holds(n)(*is, *must))
        };
        match fault {
            Fault::EntryShortTaken => prefix(lent) && lent.len() + 6 >= right.len(),
            Fault::LongerListTaken => lent.starts_with(&right),
            Fault::ContentsUnchecked => lent.len() == right.len(),
            Fault::LastNumberUnchecked => {
                let last = right.len().max(1) - 1;
                lent.len() == right.len() && prefix(&lent[..last.min(lent.len())])
            }
            Fault::LeastUnchecked => same_but(|n| n % 6 < 3),
            Fault::GreatestUnchecked => same_but(|n| n % 6 >= 3),
            Fault::LooserTaken => by_side(|is, must| is <= must, |is, must| is >= must),
            Fault::TighterTaken => by_side(|is, must| is >= must, |is, must| is <= must),
            _ => lent == right,
        }
    };
    let of_a = || is_true(&bodies.a, lists[0]);
    let of_b = || is_true(&bodies.b, lists[1]);
    match fault {
        Fault::ListOfAUnchecked => of_b(),
        Fault::ListOfBUnchecked => of_a(),
        _ => of_a() && of_b(),
    }
}

/// A walk under way.
struct Walk<'a> {
    fault: Fault,
    range: Range,
    bodies: &'a Bodies<'a>,
    words: usize,
    /// The bounds that blocks are passed over by.
    bounds: [Vec<i32>; 2],
    sum: u64,
    least: Option<Least>,
    cap: u32,
    /// True once a query was asked.
    asked: bool,
}

impl<'a> Walk<'a> {
    fn new(fault: Fault, range: Range, bodies: &'a Bodies, words: usize) -> Walk<'a> {
        let of = match fault {
            Fault::PassedWithoutTheFourth => Fault::FourthLeftOut,
            Fault::PassedByTheStart => Fault::StartAlone,
            Fault::PassedByTheEnd => Fault::EndAlone,
            _ => Fault::None,
        };
        let bounds = [bodies.a, bodies.b].map(|body| list(of, range, &body));
        Walk { fault, range, bodies, words, bounds, sum: 0, least: None, cap: 0, asked: false }
    }

    fn answer(&self) -> BodiesAnswer {
        match self.least {
            Some(least) => BodiesAnswer::Least(Least { count: self.sum, ..least }),
            None => BodiesAnswer::Clear { count: self.sum },
        }
    }

    fn is_over(&self) -> bool {
        self.least.is_some_and(|least| least.t == 0)
    }

    fn run(&mut self) {
        for a in 0..self.bodies.a.count {
            if self.is_over() && self.fault != Fault::CountsBehindTheEnd {
                return;
            }
            self.row(a);
        }
    }

    /// One triangle of A with every block of B.
    fn row(&mut self, a: usize) {
        let blocks = self.bodies.b.count.div_ceil(BLOCK);
        let goes_on = [Fault::CountsBehindTheEnd, Fault::CountsBehindTheEndInTheRow];
        let mut passes = false;
        for block in 0..blocks {
            let from = BLOCK * block;
            let behind = self.bodies.b.count.min(from + BLOCK);
            let of_a = if self.fault == Fault::FirstBlockOfA { 0 } else { a / BLOCK };
            let is_apart = self.is_apart(of_a, block);
            passes = is_apart || passes && self.fault == Fault::RestOfBPassed;
            let counts = !self.is_over() || goes_on.contains(&self.fault);
            if passes && counts {
                self.pass(behind - from);
            } else if !passes {
                (from..behind).for_each(|b| self.pair(a, b));
            }
        }
    }

    fn pass(&mut self, triangles: usize) {
        let triangles = triangles as u64;
        self.sum += match self.fault {
            Fault::FourteenChecks => (QUERIES - 1) * triangles,
            Fault::SixteenChecks => (QUERIES + 1) * triangles,
            Fault::OneCheckATriangle => triangles,
            Fault::ABlockCountedOnce => QUERIES,
            Fault::WholeBlockCounted => QUERIES * BLOCK as u64,
            _ => QUERIES * triangles,
        };
        if self.fault == Fault::CapLostBehindABlock {
            self.cap = 0;
        }
    }

    fn is_apart(&self, of_a: usize, of_b: usize) -> bool {
        let [x, y, z] = self.bodies.separations.map(i64::from);
        let separations = match self.fault {
            Fault::SeparationOfX => [x, x, x],
            Fault::SeparationsExchanged => [y, z, x],
            Fault::NoSeparation => [0; 3],
            _ => [x, y, z],
        };
        let bound = |side: usize, block: usize| self.bounds[side][6 * block..].to_vec();
        let (one, other) = (bound(0, of_a), bound(1, of_b));
        (0..3).any(|axis| {
            let gap = |low: &[i32], high: &[i32]| i64::from(low[axis]) - i64::from(high[3 + axis]);
            let gap = gap(&one, &other).max(gap(&other, &one));
            let or_equal = i64::from(self.fault == Fault::AtLeastForFurther);
            gap + or_equal > separations[axis]
        })
    }

    /// The queries of two triangles, up to a time of 0.
    fn pair(&mut self, a: usize, b: usize) {
        let one = |body: &Body<'a>, n: usize| Body {
            count: 1,
            start: &body.start[NUMBERS * n..NUMBERS * (n + 1)],
            end: &body.end[NUMBERS * n..NUMBERS * (n + 1)],
        };
        let pair = Bodies { a: one(&self.bodies.a, a), b: one(&self.bodies.b, b), ..*self.bodies };
        for asked in pair.queries() {
            if self.is_over() {
                return;
            }
            self.hear(&Asked { a: a as u32, b: b as u32, ..asked });
        }
    }

    fn hear(&mut self, asked: &Asked) {
        self.asked = true;
        let record = Record { cap: self.cap, ..asked.record };
        let answer = search(&record, self.range, self.words);
        self.sum += u64::from(answer.count());
        let Some(corner) = answer.corner() else { return };
        if self.least.is_none_or(|least| corner.t < least.t) {
            let Asked { a, mut b, query, .. } = *asked;
            if self.fault == Fault::TriangleWithinItsBlock {
                b %= BLOCK as u32;
            }
            let word = second::told::told(&answer)[0];
            let (t, excess) = (corner.t, corner.excess);
            self.least = Some(Least { word, t, a, b, query, excess, count: 0 });
            self.cap = t;
        }
    }
}
