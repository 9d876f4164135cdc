//! Pairs of triangles that are further apart on an axis than the separation: all their queries miss at level 0.

use super::bounds::Bound;
use super::walk::triangle;
use crate::bodies::{Body, Triangle, MOST_TRIANGLES};

/// What a triangle reaches on an axis: its corners and the fourth of its parallelogram, at the start and at the end.
#[inline(always)]
fn reach(triangle: &Triangle, axis: usize) -> [i32; 2] {
    let [start, end] = triangle.each_ref().map(|[p, q, r]| {
        let (p, q, r) = (p[axis], q[axis] - p[axis], r[axis] - p[axis]);
        [p + q.min(0) + r.min(0), p + q.max(0) + r.max(0)]
    });
    [start[0].min(end[0]), start[1].max(end[1])]
}

/// What lies within the separation of a triangle, from and to on x, y and z.
pub struct Reach([[i32; 2]; 3]);

impl Reach {
    #[inline(always)]
    pub fn around(triangle: &Triangle, separations: &[u32; 3]) -> Reach {
        Reach::within(separations, |axis| reach(triangle, axis))
    }

    #[inline(always)]
    pub fn around_block(bound: &Bound, separations: &[u32; 3]) -> Reach {
        Reach::within(separations, |axis| [bound[axis], bound[axis + 3]])
    }

    #[inline(always)]
    fn within(separations: &[u32; 3], reach: impl Fn(usize) -> [i32; 2]) -> Reach {
        Reach([0, 1, 2].map(|axis| {
            let ([least, greatest], d) = (reach(axis), separations[axis] as i32);
            [least - d, greatest + d]
        }))
    }

    /// Whether a triangle of the other body is apart.
    #[inline(always)]
    pub fn misses(&self, other: &Triangle) -> bool {
        self.is_apart(|axis| reach(other, axis))
    }

    /// Whether a whole block of the other body is.
    #[inline(always)]
    pub fn misses_block(&self, bound: &Bound) -> bool {
        self.is_apart(|axis| [bound[axis], bound[axis + 3]])
    }

    /// z first, then x, then y.
    #[inline(always)]
    fn is_apart(&self, reach: impl Fn(usize) -> [i32; 2]) -> bool {
        [2, 0, 1].into_iter().any(|axis| {
            let ([from, to], [least, greatest]) = (self.0[axis], reach(axis));
            (least > to) | (greatest < from)
        })
    }
}

/// The reaches of a body, axis by axis, so that neighbours are compared at once.
pub struct Reaches {
    count: usize,
    least: [[i32; MOST_TRIANGLES]; 3],
    greatest: [[i32; MOST_TRIANGLES]; 3],
}

impl Reaches {
    pub fn of(body: &Body) -> Reaches {
        let none = [[0; MOST_TRIANGLES]; 3];
        let mut reaches = Reaches { count: body.count, least: none, greatest: none };
        for n in 0..body.count {
            let triangle = triangle(body, n);
            for axis in 0..3 {
                [reaches.least[axis][n], reaches.greatest[axis][n]] = reach(&triangle, axis);
            }
        }
        reaches
    }

    /// Which triangles are not apart from one of the other body: z first, and x and y only where that leaves some.
    pub fn near(&self, around: &Reach) -> [bool; MOST_TRIANGLES] {
        let mut all = [false; MOST_TRIANGLES];
        let near = &mut all[..self.count];
        near.fill(true);
        for axis in [2, 0, 1] {
            let [from, to] = around.0[axis];
            let reaches = self.least[axis].iter().zip(&self.greatest[axis]);
            for (near, (least, greatest)) in near.iter_mut().zip(reaches) {
                *near &= (*least <= to) & (*greatest >= from);
            }
            if !near.iter().fold(false, |any, near| any | near) {
                break;
            }
        }
        all
    }
}
