//! Source document 004's method in f64, section 6 on top of Algorithm 2, for its time alone.

use super::reading::{self, records};
use std::cmp::Ordering;
use std::collections::BinaryHeap;

/// Metres of a unit: at this scale the filters are far below the tolerance, as in 004's scenes.
const METRES: f64 = 1.0 / 8_000.0;
/// Equation 5, edge-edge and vertex-face.
const FILTERS: [f64; 2] = [6.217248937900877e-15, 6.661338147750939e-15];
/// Equation 8, with a separation.
const FILTERS_APART: [f64; 2] = [7.105427357601002e-15, 7.549516567451064e-15];

/// The method's input: eight points, d, delta and m_I.
pub struct Query {
    vertex_face: bool,
    start: [[f64; 3]; 4],
    end: [[f64; 3]; 4],
    separations: [f64; 3],
    delta: f64,
    most_checks: u32,
}

/// An interval of t, u, v with its level.
#[derive(Clone, Copy)]
pub struct Interval {
    level: u32,
    ends: [[f64; 2]; 3],
}

/// What a query comes to; no time where there is no root.
pub struct Found {
    pub time: Option<f64>,
    pub checks: u32,
}

impl Query {
    /// Of a sound record without flags, taken as it is.
    #[inline(always)]
    pub fn of(query: &reading::Query) -> Query {
        let mut points = [[[0.0; 3]; 4]; 2];
        for n in 0..24 {
            let (end, point, axis) = (n / 12, n % 12 / 3, n % 3);
            points[end][point][axis] = f64::from(query.coordinate(point, end, axis)) * METRES;
        }
        Query {
            vertex_face: query.is_vertex_face(),
            start: points[0],
            end: points[1],
            separations: query.separations.map(|d| f64::from(d) * METRES),
            delta: f64::from(query.tolerance) * METRES,
            most_checks: query.budget,
        }
    }

    /// The cube's half side on each axis: d and the filter of the axis.
    fn cube(&self) -> [f64; 3] {
        let filters = if self.separations != [0.0; 3] { FILTERS_APART } else { FILTERS };
        let filter = filters[usize::from(self.vertex_face)];
        let mut cube = [1.0_f64; 3];
        for (axis, side) in cube.iter_mut().enumerate() {
            for point in self.start.iter().chain(&self.end) {
                *side = greater(point[axis].abs(), *side);
            }
            *side = self.separations[axis] + filter * *side * *side * *side;
        }
        cube
    }

    /// Least and greatest of F over the eight corners, on one axis.
    #[inline(always)]
    fn span(&self, axis: usize, [t, u, v]: &[[f64; 2]; 3]) -> (f64, f64) {
        let (mut least, mut greatest) = (f64::INFINITY, f64::NEG_INFINITY);
        for t in t {
            let at = |n: usize| (1.0 - t) * self.start[n][axis] + t * self.end[n][axis];
            let p = [at(0), at(1), at(2), at(3)];
            for u in u {
                for v in v {
                    let f = if self.vertex_face {
                        p[0] - ((1.0 - u - v) * p[1] + u * p[2] + v * p[3])
                    } else {
                        ((1.0 - u) * p[0] + u * p[1]) - ((1.0 - v) * p[2] + v * p[3])
                    };
                    least = if f < least { f } else { least };
                    greatest = greater(f, greatest);
                }
            }
        }
        (least, greatest)
    }

    /// Equation 7, its factor 3 included.
    fn kappas(&self) -> [f64; 3] {
        let mut kappas = [0.0_f64; 3];
        for axis in 0..3 {
            for (parameter, kappa) in kappas.iter_mut().enumerate() {
                for others in 0..4 {
                    let at = |end: f64| {
                        let mut place = [f64::from(others & 1), f64::from(others >> 1), 0.0];
                        place[2] = end;
                        place.swap(2, parameter);
                        self.span(axis, &place.map(|part| [part; 2])).0
                    };
                    *kappa = kappa.max(3.0 * (at(0.0) - at(1.0)).abs());
                }
            }
        }
        kappas
    }

    /// Algorithm 2, but that a small box which is not the first of its level is split, as it must be for no root to be lost.
    pub fn solve(&self, heap: &mut BinaryHeap<Interval>) -> Found {
        let cube = self.cube();
        let mut kappas = None;
        let (mut checks, mut previous, mut time) = (0, None, 0.0);
        heap.clear();
        heap.push(Interval { level: 0, ends: [[0.0, 1.0]; 3] });
        while let Some(interval) = heap.pop() {
            checks += 1;
            let Some((width, inside)) = self.check(&cube, &interval.ends) else { continue };
            let first = previous != Some(interval.level);
            if first {
                time = interval.ends[0][0];
            }
            if checks >= self.most_checks || first && (width < self.delta || inside) {
                return Found { time: Some(time), checks };
            }
            let kappas = kappas.get_or_insert_with(|| self.kappas());
            self.split(&interval, kappas, heap);
            previous = Some(interval.level);
        }
        Found { time: None, checks }
    }

    /// Width and whether the box lies in the cube, or nothing where it misses; axis by axis, as 004 does it.
    #[inline(always)]
    fn check(&self, cube: &[f64; 3], ends: &[[f64; 2]; 3]) -> Option<(f64, bool)> {
        let (mut width, mut inside) = (0.0_f64, true);
        for (axis, side) in cube.iter().enumerate() {
            let (least, greatest) = self.span(axis, ends);
            if least > *side || greatest < -side {
                return None;
            }
            width = greater(greatest - least, width);
            inside &= least >= -side && greatest <= *side;
        }
        Some((width, inside))
    }

    fn split(&self, interval: &Interval, kappas: &[f64; 3], heap: &mut BinaryHeap<Interval>) {
        let [t, u, v] = [0, 1, 2].map(|n| {
            let [low, high] = interval.ends[n];
            (high - low) * kappas[n]
        });
        let parameter = if t >= u && t >= v { 0 } else { 2 - usize::from(u >= v) };
        let [low, high] = interval.ends[parameter];
        let middle = (low + high) / 2.0;
        for half in [[low, middle], [middle, high]] {
            let mut next = Interval { level: interval.level + 1, ..*interval };
            next.ends[parameter] = half;
            if !self.vertex_face || next.ends[1][0] + next.ends[2][0] <= 1.0 {
                heap.push(next);
            }
        }
    }
}

/// One instruction, where `max` would look after numbers that are none.
fn greater(a: f64, b: f64) -> f64 {
    if a > b {
        a
    } else {
        b
    }
}

/// Lowest level first, then least t; a heap gives its greatest first.
impl Ord for Interval {
    fn cmp(&self, other: &Interval) -> Ordering {
        let by_level = other.level.cmp(&self.level);
        by_level.then_with(|| other.ends[0][0].total_cmp(&self.ends[0][0]))
    }
}

impl PartialOrd for Interval {
    fn partial_cmp(&self, other: &Interval) -> Option<Ordering> {
        Some(self.cmp(other))
    }
}

impl PartialEq for Interval {
    fn eq(&self, other: &Interval) -> bool {
        self.cmp(other) == Ordering::Equal
    }
}

impl Eq for Interval {}

/// The queries of a file without leading bytes, one after the other; SIZE is its edition's.
pub fn queries<const SIZE: usize>(file: &[u8]) -> impl Iterator<Item = Query> + '_ {
    records::<SIZE>(file, 0, file.len() / SIZE).map(|query| Query::of(&query))
}
