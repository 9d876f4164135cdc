//! F of equations (1) and (2), in whole numbers.

use crate::record::{Record, VERTEX_FACE};

/// The common denominator of t, u, v: at every edition's greatest depth each corner is whole over it, in edition 3 an even number.
pub const Q: i128 = 1 << 20;

/// The eight points of a record after the flag, wide enough for every product below.
pub struct Motion {
    vertex_face: bool,
    start: [[i128; 3]; 4],
    end: [[i128; 3]; 4],
}

impl Motion {
    pub fn of(record: &Record) -> Motion {
        let vertex_face = record.kind == VERTEX_FACE;
        let mirrored = record.flags & 1 == 1;
        let widen = |points: [[i32; 3]; 4]| {
            let mut wide = points.map(|point| point.map(i128::from));
            for point in &mut wide[record.second_body()..] {
                point[1] = if mirrored { -point[1] } else { point[1] };
            }
            wide
        };
        Motion { vertex_face, start: widen(record.start), end: widen(record.end) }
    }

    /// F times Q·Q at (t/Q, u/Q, v/Q), by axis.
    pub fn f(&self, corner: [i128; 3]) -> [i128; 3] {
        let [t, u, v] = corner;
        [0, 1, 2].map(|axis| {
            // Each point's place at t, times Q.
            let at = |n: usize| (Q - t) * self.start[n][axis] + t * self.end[n][axis];
            if self.vertex_face {
                Q * at(0) - ((Q - u - v) * at(1) + u * at(2) + v * at(3))
            } else {
                ((Q - u) * at(0) + u * at(1)) - ((Q - v) * at(2) + v * at(3))
            }
        })
    }

    /// For t, u, v: the largest axis difference of F between the parameter's ends, times Q·Q.
    pub fn differences(&self) -> [i128; 3] {
        let mut largest = [0; 3];
        for low in corners([[0, Q]; 3]) {
            for parameter in 0..3 {
                if low[parameter] == 0 {
                    let found = self.difference(parameter, low);
                    largest[parameter] = found.max(largest[parameter]);
                }
            }
        }
        largest
    }

    /// The largest axis difference from a corner to the one at the parameter's other end.
    fn difference(&self, parameter: usize, low: [i128; 3]) -> i128 {
        let mut high = low;
        high[parameter] = Q;
        let (at_low, at_high) = (self.f(low), self.f(high));
        let [x, y, z] = [0, 1, 2].map(|axis| (at_high[axis] - at_low[axis]).abs());
        x.max(y).max(z)
    }
}

/// The eight corners between the two ends of t, of u and of v.
pub fn corners(ends: [[i128; 2]; 3]) -> Vec<[i128; 3]> {
    let mut corners = Vec::with_capacity(8);
    for t in ends[0] {
        for u in ends[1] {
            for v in ends[2] {
                corners.push([t, u, v]);
            }
        }
    }
    corners
}
