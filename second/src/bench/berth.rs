//! Queries of one berth: a box gangway over a ship's side and deck, sampled from pairs of near triangles.

use crate::edition::{Edition, Range};
use crate::record::{Point, Record, EDGE_EDGE, VERTEX_FACE};
use crate::rng::Rng;

/// Units of a metre.
const METRE: i32 = 8_000;
/// Cells of the hull along the ship, and across it from the waterline over the gunwale inwards.
const ALONG: usize = 20;
const ACROSS: usize = 8;
/// Two triangles whose bounds are nearer than this on x and y are near.
const NEAR: i32 = METRE;
/// Heights of the gangway over the deck before a step, in centimetres: mostly well above.
const HEIGHTS: [i32; 8] = [200, 120, 80, 50, 30, 20, 10, 5];

/// Mostly 5 cm; with a small one a contact is found within the budget.
const SEPARATIONS: [u32; 4] = [400, 400, 400, 0];
const BUDGET: u32 = 1_000;

/// A triangle's corners at the start and at the end.
type Triangle = [[Point; 3]; 2];

/// One control step: the triangles of both bodies.
struct Step {
    gangway: Vec<Triangle>,
    hull: Vec<Triangle>,
    near: Vec<(usize, usize)>,
}

/// An endless row of queries.
pub struct Berth {
    rng: Rng,
    least_tolerance: i32,
    middle: i32,
    steps: Vec<Step>,
}

impl Berth {
    pub fn new(seed: u64, edition: Edition) -> Berth {
        let mut rng = Rng::new(seed, "berth");
        let steps = HEIGHTS.iter().map(|height| Step::new(&mut rng, *height)).collect();
        let range = edition.range();
        let least_tolerance = range.least_tolerance as i32;
        Berth { rng, least_tolerance, middle: middle(range), steps }
    }

    /// Triangles of the gangway and of the hull.
    pub fn triangles(&self) -> (usize, usize) {
        (self.steps[0].gangway.len(), self.steps[0].hull.len())
    }

    /// One of the fifteen queries of a near pair.
    pub fn query(&mut self) -> Record {
        let step = &self.steps[self.rng.below(self.steps.len())];
        let (a, b) = self.rng.pick(&step.near);
        let (a, b) = (&step.gangway[a], &step.hull[b]);
        let query = self.rng.below(15);
        let points = [0, 1]
            .map(|end| points(query, &a[end], &b[end]).map(|[x, y, z]| [x + self.middle, y, z]));
        Record {
            kind: if query < 6 { VERTEX_FACE } else { EDGE_EDGE },
            flags: 0,
            byte2: 0,
            byte3: 0,
            id: self.rng.draw() as u32,
            separations: [self.rng.pick(&SEPARATIONS); 3],
            tolerance: self.rng.between(self.least_tolerance, 5 * self.least_tolerance) as u32,
            budget: BUDGET,
            cap: 0,
            start: points[0],
            end: points[1],
        }
    }
}

/// Where what is measured lies along x: beyond all that the shorter range holds, where the range is the longer.
pub fn middle(range: Range) -> i32 {
    (range.most_coordinate - Range::SHORTER.most_coordinate) / 2 * 3
}

/// Queries 0 to 2: corners of a with face b; 3 to 5: corners of b with face a; then edges of a with edges of b.
fn points(query: usize, a: &[Point; 3], b: &[Point; 3]) -> [Point; 4] {
    match query {
        0..=2 => [a[query], b[0], b[1], b[2]],
        3..=5 => [b[query - 3], a[0], a[1], a[2]],
        _ => {
            let (m, n) = ((query - 6) / 3, (query - 6) % 3);
            [a[m], a[(m + 1) % 3], b[n], b[(n + 1) % 3]]
        }
    }
}

impl Step {
    /// The gangway comes down at its tip, the ship heaves, rolls and surges.
    fn new(rng: &mut Rng, height: i32) -> Step {
        let low = height * METRE / 100;
        let (luff, slew) = (rng.between(500, 2_400), rng.between(-400, 400));
        let (heave, roll, surge) =
            (rng.between(-800, 1_600), rng.between(-40, 40), rng.between(-300, 300));
        let gangway = gangway(rng, low).map(|p| {
            // The quay end stays where it is.
            let reach = (p[1] + 14 * METRE) / 100;
            [p, [p[0] + slew * reach / 1_320, p[1], p[2] - luff * reach / 1_320]]
        });
        let hull = hull(rng)
            .into_iter()
            .map(|p| [p, [p[0] + surge, p[1], p[2] + heave + roll * p[1] / METRE]]);
        let (gangway, hull) = (box_of(&gangway), grid_of(&hull.collect::<Vec<_>>()));
        let pairs = (0..gangway.len()).flat_map(|a| (0..hull.len()).map(move |b| (a, b)));
        let near = pairs.filter(|(a, b)| is_near(&gangway[*a], &hull[*b])).collect();
        Step { gangway, hull, near }
    }
}

/// Eight corners: 16.5 m long, 1.6 m wide, 1.2 m high, its tip 2.5 m inside the gunwale.
fn gangway(rng: &mut Rng, low: i32) -> [Point; 8] {
    let tilt = rng.between(-2_000, 6_000);
    [0, 1, 2, 3, 4, 5, 6, 7].map(|corner: i32| {
        let x = if corner & 1 == 0 { -METRE * 4 / 5 } else { METRE * 4 / 5 };
        let tip = corner & 2 != 0;
        let z = low + if corner & 4 == 0 { 0 } else { METRE * 6 / 5 };
        [x, if tip { METRE * 5 / 2 } else { -14 * METRE }, if tip { z } else { z + tilt }]
    })
}

/// The twelve triangles of eight moving corners.
fn box_of(corners: &[[Point; 2]; 8]) -> Vec<Triangle> {
    const SIDES: [[usize; 4]; 6] =
        [[0, 1, 3, 2], [4, 5, 7, 6], [0, 1, 5, 4], [2, 3, 7, 6], [0, 2, 6, 4], [1, 3, 7, 5]];
    let triangle = |n: [usize; 3]| [0, 1].map(|end| n.map(|corner| corners[corner][end]));
    SIDES.iter().flat_map(|s| [[s[0], s[1], s[2]], [s[0], s[2], s[3]]]).map(triangle).collect()
}

/// Grid points of the hull: half of the cells across are the ship's side, half are deck.
fn hull(rng: &mut Rng) -> Vec<Point> {
    let mut points = Vec::new();
    for i in 0..=ALONG as i32 {
        for j in 0..=ACROSS as i32 {
            let (x, half) = ((i - ALONG as i32 / 2) * METRE * 6 / 5, ACROSS as i32 / 2);
            let (y, z) = if j < half {
                ((half - j) * METRE / 5, (j - half) * METRE * 3 / 2)
            } else {
                ((j - half) * METRE * 3 / 2, (j - half) * METRE / 50)
            };
            // The side falls away from the quay towards bow and stern; plates are uneven.
            let away = x / METRE * x / 50;
            points.push([x, y + away + rng.between(-80, 80), z + rng.between(-80, 80)]);
        }
    }
    points
}

/// Two triangles for each cell of the hull's grid of moving points.
fn grid_of(points: &[[Point; 2]]) -> Vec<Triangle> {
    let triangle = |n: [usize; 3]| [0, 1].map(|end| n.map(|point| points[point][end]));
    let mut triangles = Vec::new();
    for i in 0..ALONG {
        for j in 0..ACROSS {
            let at = i * (ACROSS + 1) + j;
            triangles.push(triangle([at, at + 1, at + ACROSS + 1]));
            triangles.push(triangle([at + 1, at + ACROSS + 2, at + ACROSS + 1]));
        }
    }
    triangles
}

fn is_near(a: &Triangle, b: &Triangle) -> bool {
    let bounds = |triangle: &Triangle, axis: usize| {
        let all = triangle.iter().flatten().map(move |point| point[axis]);
        (all.clone().min().expect("six points"), all.max().expect("six points"))
    };
    (0..2).all(|axis| {
        let ((a_low, a_high), (b_low, b_high)) = (bounds(a, axis), bounds(b, axis));
        a_low - b_high < NEAR && b_low - a_high < NEAR
    })
}
