//! F in i64: on each axis A + u·B + v·C, where A, B and C go straight from the start to the end.

use super::reading::Query;
use super::stored::SHIFTS;

/// What is told counts 1 over 2 to this, whatever the edition.
const TOLD_DEPTH: u32 = 20;

/// Of x, y, z, and of a fourth on which all is 0: four go at once where three would not.
pub type Axes = [i64; 4];

/// A query as a search by hand takes it. Q is 2 to its depth limit, so that F times Q·Q is whole and within i64 in every edition.
pub struct Asked {
    pub is_vertex_face: bool,
    /// The deepest that a parameter is split.
    pub deepest: u32,
    /// A, B and C at the start and at the end.
    pub ends: [[Axes; 3]; 2],
    /// Times Q·Q, as the tolerance.
    pub separations: Axes,
    pub tolerance: i64,
    pub budget: u32,
    /// The last moment over Q; Q itself without a cap.
    pub last: i64,
}

/// What a query asks beside its points.
#[derive(Clone, Copy)]
pub struct Terms {
    pub deepest: u32,
    pub separations: [u32; 3],
    pub tolerance: u32,
    pub budget: u32,
    pub cap: u32,
}

/// Four points at the start and at the end, as a search goes by them.
pub trait Points {
    /// The coordinate of a point at an end on an axis.
    fn at(&self, point: usize, end: usize, axis: usize) -> i32;

    /// A, B and C at an end on an axis, chosen without a branch.
    #[inline(always)]
    fn kernel(&self, is_vertex_face: bool, end: usize, axis: usize) -> [i32; 3] {
        let p = |point: usize| self.at(point, end, axis);
        let (from, to) = if is_vertex_face { (p(1), p(2)) } else { (p(2), p(0)) };
        [p(0) - from, p(1) - to, from - p(3)]
    }
}

impl Asked {
    #[inline(always)]
    pub fn of(query: &Query, deepest: u32) -> Asked {
        let Query { separations, tolerance, budget, cap, .. } = *query;
        let terms = Terms { deepest, separations, tolerance, budget, cap };
        Asked::new(query.is_vertex_face(), &terms, query)
    }

    #[inline(always)]
    pub fn new(is_vertex_face: bool, terms: &Terms, points: &impl Points) -> Asked {
        let Terms { deepest, budget, .. } = *terms;
        let scaled = |number: u32| i64::from(number) << (2 * deepest);
        let mut ends = [[[0; 4]; 3]; 2];
        let mut separations = [0; 4];
        for axis in 0..3 {
            separations[axis] = scaled(terms.separations[axis]);
            for (end, [a, b, c]) in ends.iter_mut().enumerate() {
                let numbers = points.kernel(is_vertex_face, end, axis);
                [a[axis], b[axis], c[axis]] = numbers.map(i64::from);
            }
        }
        let tolerance = scaled(terms.tolerance);
        // Low t is whole over Q, so that an odd cap of a coarser grid loses nothing.
        let last = match terms.cap {
            0 => 1 << deepest,
            cap => i64::from(cap) >> (TOLD_DEPTH - deepest),
        };
        Asked { is_vertex_face, deepest, ends, separations, tolerance, budget, last }
    }

    /// A, B or C on an axis at t, times Q.
    #[inline(always)]
    pub fn at(&self, n: usize, axis: usize, t: i64) -> i64 {
        let [start, end] = &self.ends;
        (start[n][axis] << self.deepest) + t * (end[n][axis] - start[n][axis])
    }

    /// The words of boxes that begin up to the cap are below this one, at a depth of t.
    #[inline(always)]
    pub fn end(&self, depth: u32) -> u64 {
        ((self.last as u64 >> (self.deepest - depth)) + 1) << SHIFTS[0]
    }

    /// What is told of a place over Q: t, u, v and the excess there.
    pub fn told(&self, place: [i64; 3]) -> [u32; 4] {
        let [t, u, v] = place.map(|part| (part << (TOLD_DEPTH - self.deepest)) as u32);
        [t, u, v, self.excess(place)]
    }

    /// The largest of |F| minus separation at a place, in whole units, rounded up; 0 if negative.
    fn excess(&self, [t, u, v]: [i64; 3]) -> u32 {
        let mut beyond = 0;
        for (axis, d) in self.separations.iter().enumerate() {
            let [a, b, c] = [0, 1, 2].map(|n| self.at(n, axis, t));
            beyond = (((a << self.deepest) + u * b + v * c).abs() - d).max(beyond);
        }
        let unit = 1_i64 << (2 * self.deepest);
        ((beyond + (unit - 1)) >> (2 * self.deepest)) as u32
    }

    /// The parameter that a level of these depths is split in.
    pub fn parameter(&self, differences: &[i64; 3], depths: &[u32; 3]) -> usize {
        let weight = |n: usize| match self.deepest - depths[n] {
            0 => -1,
            left => differences[n] << left,
        };
        let (t, u, v) = (weight(0), weight(1), weight(2));
        if t >= u && t >= v {
            0
        } else if u >= v {
            1
        } else {
            2
        }
    }

    /// For t, u, v: the largest axis difference of F between the parameter's ends.
    pub fn differences(&self) -> [i64; 3] {
        let [start, end] = &self.ends;
        let mut largest = [0; 3];
        for axis in 0..3 {
            let [a, b, c] = [0, 1, 2].map(|n| end[n][axis] - start[n][axis]);
            for over_t in [a, a + b, a + c, a + b + c] {
                largest[0] = over_t.abs().max(largest[0]);
            }
            for [_, b, c] in &self.ends {
                largest[1] = b[axis].abs().max(largest[1]);
                largest[2] = c[axis].abs().max(largest[2]);
            }
        }
        largest
    }
}
