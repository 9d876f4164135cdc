//! Exact walks written by hand: same answers and refusals as `taperhive_bodies`. Their yardstick is time, not proof.

use super::reach::{Reach, Reaches};
use crate::bench::answering::{ByHand, CLEAR};
use crate::bench::cube;
use crate::bench::fast::Fast;
use crate::bench::motion::{Asked, Points, Terms};
use crate::bench::plain::Plain;
use crate::bench::same::Same;
use crate::bodies::{Bodies, Body, Triangle, MOST_TRIANGLES, NUMBERS, QUERIES};
use crate::edition::{Edition, Range};
use crate::record::Point;
use crate::refusals::{check_words, Refusal, MOST_BUDGET, MOST_SEPARATION, MOST_TOLERANCE};
use std::ops::{ControlFlow, Range as Numbers};

pub const BODY: u32 = 21;
pub const COORD: u32 = 3;
pub const SPACE: u32 = 14;

/// A walk goes on, or it ends at a time of 0.
pub type Goes = ControlFlow<()>;

/// Which pairs of triangles a walk asks; their queries have the same hand's search.
pub trait Way: ByHand {
    fn pairs(walk: &mut Walk, a: &Body, b: &Body) -> Goes;
}

/// Every pair.
impl Way for Plain {
    fn pairs(walk: &mut Walk, a: &Body, b: &Body) -> Goes {
        for m in 0..a.count {
            let of_a = triangle(a, m);
            for n in 0..b.count {
                walk.pair::<Plain>([m as u32, n as u32], &of_a, &triangle(b, n))?;
            }
        }
        Goes::Continue(())
    }
}

/// The queries of a pair that is apart are counted, and not asked; what B reaches is worked out on the way.
impl Way for Same {
    fn pairs(walk: &mut Walk, a: &Body, b: &Body) -> Goes {
        for m in 0..a.count {
            let mut row = Row::new(walk, a, m);
            row.ask(walk, b, 0..b.count)?;
            walk.pass_over(row.apart);
        }
        Goes::Continue(())
    }
}

/// A triangle of A on its way through B.
pub struct Row {
    m: usize,
    of_a: Triangle,
    pub around: Reach,
    /// Triangles of B that are apart from it, and not counted yet.
    pub apart: usize,
}

impl Row {
    #[inline(always)]
    pub fn new(walk: &Walk, a: &Body, m: usize) -> Row {
        let of_a = triangle(a, m);
        let around = Reach::around(&of_a, &walk.terms.separations);
        Row { m, of_a, around, apart: 0 }
    }

    /// Through these triangles of B.
    #[inline(always)]
    pub fn ask(&mut self, walk: &mut Walk, b: &Body, of_b: Numbers<usize>) -> Goes {
        for n in of_b {
            if self.around.misses(&triangle(b, n)) {
                self.apart += 1;
            } else {
                walk.pass_over(self.apart);
                self.apart = 0;
                walk.pair::<Same>([self.m as u32, n as u32], &self.of_a, &triangle(b, n))?;
            }
        }
        Goes::Continue(())
    }
}

/// The same with what B reaches kept, so that a whole row is compared at once.
impl Way for Fast {
    fn pairs(walk: &mut Walk, a: &Body, b: &Body) -> Goes {
        let reaches = Reaches::of(b);
        for m in 0..a.count {
            let of_a = triangle(a, m);
            let near = reaches.near(&Reach::around(&of_a, &walk.terms.separations));
            let mut behind = 0;
            if near.iter().fold(false, |any, near| any | near) {
                for n in (0..b.count).filter(|n| near[*n]) {
                    walk.pass_over(n - behind);
                    behind = n + 1;
                    walk.pair::<Fast>([m as u32, n as u32], &of_a, &triangle(b, n))?;
                }
            }
            walk.pass_over(b.count - behind);
        }
        Goes::Continue(())
    }
}

/// As `taperhive_bodies`.
pub fn bodies<W: Way>(bodies: &Bodies, queue: &mut [u64], told: &mut [u32]) -> u32 {
    let Ok(edition) = Edition::of(bodies.edition) else { return Refusal::Edition.number() };
    let (range, Bodies { a, b, .. }) = (edition.range(), bodies);
    let number = early_refusal(bodies, &range, queue.len());
    if number != 0 {
        return number;
    }
    if [a.start, a.end, b.start, b.end].into_iter().any(|list| is_outside(list, &range)) {
        return COORD;
    }
    let Some(told) = told.first_chunk_mut::<8>() else { return SPACE };
    *told = Walk::through(bodies, &range, queue, |walk| W::pairs(walk, a, b));
    0
}

/// 21, the first query's coordinates, what all queries share; 0 for none. Every other coordinate comes behind.
pub fn early_refusal(bodies: &Bodies, range: &Range, words: usize) -> u32 {
    let Bodies { a, b, .. } = bodies;
    let is_outside = |list: &[i32]| is_outside(list, range);
    if is_no_body(a) || is_no_body(b) {
        return BODY;
    }
    let in_first = [&a.start[..3], &a.end[..3], &b.start[..NUMBERS], &b.end[..NUMBERS]];
    if in_first.into_iter().any(is_outside) {
        return COORD;
    }
    if bodies.separations.iter().any(|d| *d > MOST_SEPARATION) {
        return 4;
    }
    if !(range.least_tolerance..=MOST_TOLERANCE).contains(&bodies.tolerance) {
        return 5;
    }
    if !(1..=MOST_BUDGET).contains(&bodies.budget) {
        return 6;
    }
    if check_words(words).is_err() {
        return 7;
    }
    0
}

pub fn is_no_body(body: &Body) -> bool {
    let length = body.count.wrapping_mul(NUMBERS);
    let in_range = (1..=MOST_TRIANGLES).contains(&body.count);
    !in_range || body.start.len() != length || body.end.len() != length
}

fn is_outside(coordinates: &[i32], range: &Range) -> bool {
    coordinates.iter().fold(false, |any, coordinate| any | !range.holds(*coordinate))
}

/// Triangle n of a body, straight from its lists.
#[inline(always)]
pub fn triangle(body: &Body, n: usize) -> Triangle {
    [body.start, body.end].map(|list| {
        let numbers: &[i32; NUMBERS] = list[NUMBERS * n..][..NUMBERS].try_into().expect("nine");
        [0, 3, 6].map(|at| [numbers[at], numbers[at + 1], numbers[at + 2]])
    })
}

/// A query's points, each at the start and at the end.
type FourCorners = [[Point; 2]; 4];

impl Points for FourCorners {
    #[inline(always)]
    fn at(&self, point: usize, end: usize, axis: usize) -> i32 {
        self[point][end][axis]
    }
}

pub struct Walk<'a> {
    /// The cap is the least time so far.
    terms: Terms,
    queue: &'a mut [u64],
    sum: u64,
    /// Word, t, triangle of A, triangle of B, query, excess.
    least: [u32; 6],
}

impl<'a> Walk<'a> {
    /// What is told of sound bodies that are walked so; the queue is cleared at the end.
    #[inline(always)]
    pub fn through(
        bodies: &Bodies,
        range: &Range,
        queue: &'a mut [u64],
        pairs: impl FnOnce(&mut Walk<'a>) -> Goes,
    ) -> [u32; 8] {
        let Bodies { separations, tolerance, budget, .. } = *bodies;
        // No time so far is no cap.
        let terms = Terms { deepest: range.deepest, separations, tolerance, budget, cap: 0 };
        let mut walk = Walk { terms, queue, sum: 0, least: [CLEAR, u32::MAX, 0, 0, 0, 0] };
        let _ = pairs(&mut walk);
        walk.queue.fill(0);
        walk.told()
    }

    #[inline(always)]
    pub fn separations(&self) -> &[u32; 3] {
        &self.terms.separations
    }

    /// So many triangles that are apart: level 0 decides each of their queries.
    #[inline(always)]
    pub fn pass_over(&mut self, triangles: usize) {
        self.sum += u64::from(QUERIES) * triangles as u64;
    }

    #[inline(never)]
    fn pair<W: Way>(&mut self, at: [u32; 2], a: &Triangle, b: &Triangle) -> Goes {
        let corner = |triangle: &Triangle, n: usize| [triangle[0][n], triangle[1][n]];
        let [a, b] = [a, b].map(|triangle| [0, 1, 2].map(|n| corner(triangle, n)));
        for (corner, query) in a.into_iter().zip(1..) {
            self.ask::<true, W>(at, query, [corner, b[0], b[1], b[2]])?;
        }
        for (corner, query) in b.into_iter().zip(4..) {
            self.ask::<true, W>(at, query, [corner, a[0], a[1], a[2]])?;
        }
        for m in 0..3 {
            for n in 0..3 {
                let points = [a[m], a[(m + 1) % 3], b[n], b[(n + 1) % 3]];
                self.ask::<false, W>(at, (7 + 3 * m + n) as u32, points)?;
            }
        }
        Goes::Continue(())
    }

    #[inline(always)]
    fn ask<const VERTEX_FACE: bool, W: Way>(
        &mut self,
        at: [u32; 2],
        query: u32,
        points: FourCorners,
    ) -> Goes {
        if W::CUBE_FIRST && cube::misses(VERTEX_FACE, &self.terms.separations, &points) {
            self.sum += 1;
            return Goes::Continue(());
        }
        let asked = Asked::new(VERTEX_FACE, &self.terms, &points);
        let [word, t, _, _, excess, count] = W::search(&asked, self.queue);
        self.sum += u64::from(count);
        if word != CLEAR && (self.least[0] == CLEAR || t < self.least[1]) {
            self.least = [word, t, at[0], at[1], query, excess];
            self.terms.cap = t;
            if t == 0 {
                return Goes::Break(());
            }
        }
        Goes::Continue(())
    }

    fn told(&self) -> [u32; 8] {
        let [word, t, a, b, query, excess] = self.least;
        let t = if word == CLEAR { 0 } else { t };
        [word, t, a, b, query, excess, self.sum as u32, (self.sum >> 32) as u32]
    }
}
