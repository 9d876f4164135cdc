//! Bounds of a body by hand, as `taperhive_bounds` and `taperhive_replace`: blocks of 32 triangles, each with least x, y, z and greatest x, y, z.

use super::walk::{is_no_body, BODY, COORD, SPACE};
use crate::bodies::{Body, MOST_TRIANGLES, NUMBERS};
use crate::edition::{Edition, Range};
use crate::refusals::Refusal;
use std::ops::Range as Numbers;

/// Triangles of a block.
pub const BLOCK: usize = 32;
/// Numbers of a bound.
pub const BOUND: usize = 6;
pub const BOUNDS: u32 = 27;
const INDEX: u32 = 13;

pub type Bound = [i32; BOUND];

/// A body as its owner keeps it.
#[derive(Clone, Debug, PartialEq, Eq)]
pub struct Kept {
    pub start: Vec<i32>,
    pub end: Vec<i32>,
    pub bounds: Vec<i32>,
}

impl Kept {
    /// A sound body with its bounds.
    pub fn new(edition: u8, body: &Body) -> Kept {
        let mut bounds = vec![0; BOUND * blocks(body.count)];
        assert_eq!(of(edition, body, &mut bounds), 0, "a sound body");
        Kept { start: body.start.to_vec(), end: body.end.to_vec(), bounds }
    }

    pub fn body(&self) -> Body<'_> {
        Body { count: self.start.len() / NUMBERS, start: &self.start, end: &self.end }
    }
}

/// How many blocks so many triangles have.
pub fn blocks(count: usize) -> usize {
    count.div_ceil(BLOCK)
}

/// The triangles of a block.
#[inline(always)]
pub fn of_block(block: usize, count: usize) -> Numbers<usize> {
    BLOCK * block..count.min(BLOCK * (block + 1))
}

/// A list of bounds, block by block.
#[inline(always)]
pub fn each(bounds: &[i32]) -> impl Iterator<Item = &Bound> {
    bounds.chunks_exact(BOUND).map(|bound| bound.try_into().expect("six"))
}

/// From the least to the greatest.
type Reach = [i32; 2];

const NOTHING: Reach = [i32::MAX, i32::MIN];

#[inline(always)]
fn joined(one: Reach, other: Reach) -> Reach {
    [one[0].min(other[0]), one[1].max(other[1])]
}

/// What triangles reach on x, y, z by their corners, and by their fourth ones: one pass serves the coordinates' range and the bound.
#[derive(Clone, Copy)]
pub struct Pass([[Reach; 2]; 3]);

impl Pass {
    /// Through triangles that stand one behind the other; axis by axis, and both moments by turns, is what is fastest.
    #[inline(never)]
    pub fn through(body: &Body, triangles: Numbers<usize>) -> Pass {
        let numbers = NUMBERS * triangles.start..NUMBERS * triangles.end;
        let [start, end] = [body.start, body.end].map(|list| &list[numbers.clone()]);
        Pass([0, 1, 2].map(|axis| Pass::on(axis, start, end)))
    }

    #[inline(always)]
    fn on(axis: usize, start: &[i32], end: &[i32]) -> [Reach; 2] {
        let (mut corners, mut fourths) = (NOTHING, NOTHING);
        for moments in start.chunks_exact(NUMBERS).zip(end.chunks_exact(NUMBERS)) {
            for numbers in [moments.0, moments.1] {
                let [p, q, r] = [0, 3, 6].map(|corner| numbers[corner + axis]);
                // Of coordinates out of range it may wrap, and is not used.
                let fourth = q.wrapping_add(r).wrapping_sub(p);
                corners = joined(corners, [p.min(q).min(r), p.max(q).max(r)]);
                fourths = joined(fourths, [fourth; 2]);
            }
        }
        [corners, fourths]
    }

    fn and(&self, other: &Pass) -> Pass {
        Pass([0, 1, 2].map(|axis| [0, 1].map(|of| joined(self.0[axis][of], other.0[axis][of]))))
    }

    #[inline(always)]
    pub fn is_outside(&self, range: &Range) -> bool {
        let is_outside = |[least, greatest]: Reach| !range.holds(least) | !range.holds(greatest);
        self.0.iter().fold(false, |any, [corners, _]| any | is_outside(*corners))
    }

    #[inline(always)]
    pub fn bound(&self) -> Bound {
        let [x, y, z] = self.0.map(|[corners, fourths]| joined(corners, fourths));
        [x[0], y[0], z[0], x[1], y[1], z[1]]
    }
}

/// As `taperhive_bounds`.
pub fn of(edition: u8, body: &Body, bounds: &mut [i32]) -> u32 {
    let Ok(edition) = Edition::of(edition) else { return Refusal::Edition.number() };
    if is_no_body(body) {
        return BODY;
    }
    let mut found = [[0; BOUND]; MOST_TRIANGLES / BLOCK];
    for (block, bound) in found.iter_mut().enumerate().take(blocks(body.count)) {
        let pass = Pass::through(body, of_block(block, body.count));
        if pass.is_outside(&edition.range()) {
            return COORD;
        }
        *bound = pass.bound();
    }
    let found = &found.as_flattened()[..BOUND * blocks(body.count)];
    let Some(bounds) = bounds.get_mut(..found.len()) else { return SPACE };
    bounds.copy_from_slice(found);
    0
}

/// As `taperhive_replace`: corners at the start, then at the end.
pub fn replace(edition: u8, kept: &mut Kept, n: usize, corners: &[i32]) -> u32 {
    let Ok(edition) = Edition::of(edition) else { return Refusal::Edition.number() };
    let (body, range) = (kept.body(), edition.range());
    if is_no_body(&body) || corners.len() != 2 * NUMBERS {
        return BODY;
    }
    if n >= body.count {
        return INDEX;
    }
    let ((start, end), block) = (corners.split_at(NUMBERS), of_block(n / BLOCK, body.count));
    let others = [block.start..n, n + 1..block.end].map(|some| Pass::through(&body, some));
    let pass = Pass::through(&Body { count: 1, start, end }, 0..1).and(&others[0]).and(&others[1]);
    if pass.is_outside(&range) {
        return COORD;
    }
    if kept.bounds.len() != BOUND * blocks(body.count) {
        return BOUNDS;
    }
    kept.start[NUMBERS * n..][..NUMBERS].copy_from_slice(start);
    kept.end[NUMBERS * n..][..NUMBERS].copy_from_slice(end);
    kept.bounds[BOUND * (n / BLOCK)..][..BOUND].copy_from_slice(&pass.bound());
    0
}
