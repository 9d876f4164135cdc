//! What all boxes of a level with one t index share: the bounds of what F changes by their u and v index.

use crate::bench::motion::Asked;
use crate::bench::stored::INDEX;

/// At one end of a t index, on one axis.
#[derive(Clone, Copy)]
struct Edge {
    /// What F gains with the next u index, and with the next v index.
    u: i64,
    v: i64,
    /// The bounds of that gain for a box that comes within the separation, from below and from above.
    from: i64,
    to: i64,
}

impl Edge {
    #[inline(always)]
    fn new(asked: &Asked, depths: &[u32; 3], axis: usize, t: i64) -> Edge {
        let at = |n: usize| asked.at(n, axis, t);
        let (a, d) = (at(0) << asked.deepest, asked.separations[axis]);
        let [_, left_u, left_v] = depths.map(|depth| asked.deepest - depth);
        let (u, v) = (at(1) << left_u, at(2) << left_v);
        Edge { u, v, from: -d - (a + u.max(0) + v.max(0)), to: d - (a + u.min(0) + v.min(0)) }
    }

    #[inline(always)]
    fn gain(&self, u: i64, v: i64) -> i64 {
        u * self.u + v * self.v
    }
}

/// Both ends of a t index on one axis.
#[derive(Clone, Copy)]
pub struct Strip {
    start: Edge,
    end: Edge,
}

impl Strip {
    #[inline(always)]
    pub fn new(asked: &Asked, depths: &[u32; 3], axis: usize, t: u64) -> Strip {
        let left = asked.deepest - depths[0];
        let (low, side) = ((t as i64) << left, 1 << left);
        let edge = |t: i64| Edge::new(asked, depths, axis, t);
        Strip { start: edge(low), end: edge(low + side) }
    }

    #[inline(always)]
    pub fn meets(&self, word: u64) -> bool {
        let (u, v) = indices(word);
        let (s, e) = (self.start.gain(u, v), self.end.gain(u, v));
        ((s <= self.start.to) | (e <= self.end.to))
            & ((self.start.from <= s) | (self.end.from <= e))
    }

    /// Whether F is within the separation at the low corner of a box, and whether the box is within the tolerance.
    #[inline(always)]
    fn nears(&self, word: u64, d: i64, tolerance: i64) -> (bool, bool) {
        let (u, v) = indices(word);
        let (s, e) = (self.start.gain(u, v), self.end.gain(u, v));
        let corner = s - self.start.to + d - self.start.u.min(0) - self.start.v.min(0);
        let greatest = (s - self.start.from).max(e - self.end.from);
        // The width itself can be 2 to the 63.
        let least = (s - self.start.to).min(e - self.end.to);
        (corner.abs() <= d, greatest <= least + 2 * d + tolerance)
    }
}

/// Whether F is within the separation at the low corner of a box, or its width within the tolerance; of strips by their axis.
#[inline(always)]
pub fn is_near(asked: &Asked, word: u64, strip: impl Fn(usize) -> Strip) -> bool {
    let (mut within, mut thin) = (true, true);
    for axis in [2, 0, 1] {
        let nears = strip(axis).nears(word, asked.separations[axis], asked.tolerance);
        within &= nears.0;
        thin &= nears.1;
        if !(within | thin) {
            return false;
        }
    }
    true
}

/// The u and the v index.
#[inline(always)]
fn indices(word: u64) -> (i64, i64) {
    ((word >> 20 & INDEX) as i64, (word & INDEX) as i64)
}
