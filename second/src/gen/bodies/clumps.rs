//! Bodies of few triangles that all come near each other.

use super::{count, turned, Drawn, Pair};
use crate::bodies::Triangle;
use crate::edition::Range;
use crate::gen::dice::Dice;
use crate::gen::shapes::point;
use crate::record::Point;
use crate::refusals::MOST_TOLERANCE;

/// Boxes that the queries of a case may take together, about.
const BOXES: u32 = 12_000;

fn size(rng: &mut Dice) -> i32 {
    rng.pick(&[5, 30, 100, 400, 1_000, 100_000])
}

fn few(rng: &mut Dice) -> usize {
    rng.pick(&[1, 1, 2, 2, 3, 4])
}

fn three(mut point: impl FnMut() -> Point) -> [Point; 3] {
    [point(), point(), point()]
}

pub(super) fn add(a: Point, b: Point) -> Point {
    [a[0] + b[0], a[1] + b[1], a[2] + b[2]]
}

/// A triangle anywhere within reach, moving anyhow, or standing.
pub(super) fn any(rng: &mut Dice, reach: i32) -> Triangle {
    let start = three(|| point(rng, reach));
    let end = if rng.one_in(3) { start } else { three(|| point(rng, reach)) };
    [start, end]
}

/// Moves a triangle as one piece.
pub(super) fn moved(triangle: Triangle, ways: [Point; 2]) -> Triangle {
    [0, 1].map(|end| triangle[end].map(|corner| add(corner, ways[end])))
}

/// Numbers with which the pairs take no long time.
fn finish(rng: &mut Dice, reach: i32, pair: Pair) -> Drawn {
    let queries = 15 * (pair[0].len() * pair[1].len()) as u32;
    let mut drawn = Drawn::new(rng, reach, pair);
    drawn.budget = drawn.budget.min((BOXES / queries).max(1));
    drawn
}

pub fn near(rng: &mut Dice) -> Drawn {
    let reach = size(rng);
    let (a, b) = (few(rng), few(rng));
    let way = point(rng, 2 * reach);
    let back = way.map(|coordinate| -coordinate);
    let first = (0..a).map(|_| moved(any(rng, reach), [way, back])).collect();
    let second = (0..b).map(|_| any(rng, reach)).collect();
    finish(rng, reach, [first, second])
}

/// A place of a triangle at a moment in eighths: a corner, the middle of an edge, or a quarter into the face, times 8·4.
fn place(rng: &mut Dice, triangle: &Triangle, eighths: i32) -> Point {
    let weights = rng.pick(&[[4, 0, 0], [0, 4, 0], [0, 0, 4], [2, 2, 0], [0, 2, 2], [2, 1, 1]]);
    [0, 1, 2].map(|axis| {
        let at = |corner: usize| {
            let [start, end] = [0, 1].map(|end| triangle[end][corner][axis]);
            (8 - eighths) * start + eighths * end
        };
        (0..3).map(|corner| weights[corner] * at(corner)).sum()
    })
}

/// Some triangle of A touches one of B at a moment, or misses it by the separation and one more.
pub fn touching(rng: &mut Dice) -> Drawn {
    touching_at(rng, &[0, 0, 1, 4, 5, 8, 8])
}

/// The same at the start, so that the walk ends there, mostly inside a pair.
pub fn at_the_start(rng: &mut Dice) -> Drawn {
    touching_at(rng, &[0])
}

/// The same at one of some moments in eighths.
fn touching_at(rng: &mut Dice, moments: &[i32]) -> Drawn {
    let reach = size(rng);
    let counts = [count(rng).min(6), count(rng).min(6)];
    let pair: Pair = counts.map(|count| (0..count).map(|_| any(rng, reach)).collect());
    let (one, other) = (pair[0][rng.below(counts[0])], pair[1][rng.below(counts[1])]);
    let eighths = rng.pick(moments);
    let (from, to) = (place(rng, &one, eighths), place(rng, &other, eighths));
    let mut way = [0, 1, 2].map(|axis| (to[axis] - from[axis]) / 32);
    let mut drawn = finish(rng, reach, pair);
    let axis = rng.below(3);
    let d = drawn.separations[axis] as i32;
    way[axis] += rng.pick(&[0, 0, d, -d, d + 1, -d - 1]);
    for (n, coordinate) in drawn.positions[0].iter_mut().flat_map(|all| all.iter_mut().enumerate())
    {
        *coordinate += way[n % 3];
    }
    drawn
}

/// Both bodies move by the same way, so that nothing comes nearer.
pub fn together(rng: &mut Dice) -> Drawn {
    let reach = size(rng);
    let way = point(rng, 500_000);
    let counts = [count(rng).min(5), count(rng).min(5)];
    let pair = counts.map(|count| {
        let apart = point(rng, 2 * reach);
        let still = |rng: &mut Dice| [three(|| add(point(rng, reach), apart)); 2];
        (0..count).map(|_| moved(still(rng), [[0; 3], way])).collect()
    });
    finish(rng, reach, pair)
}

/// Triangles that are a point, a line, all one, or that shrink to a point.
pub fn degenerate(rng: &mut Dice) -> Drawn {
    let reach = size(rng);
    let counts = [few(rng), few(rng)];
    let model = any(rng, reach);
    let pair = counts.map(|count| (0..count).map(|_| collapsed(rng, reach, &model)).collect());
    let pair = turned(rng, pair);
    finish(rng, reach, pair)
}

fn collapsed(rng: &mut Dice, reach: i32, model: &Triangle) -> Triangle {
    let (a, b, way) = (point(rng, reach), point(rng, reach), point(rng, reach));
    let line = [a, add(a, way), add(add(a, way), way)];
    let corners = rng.pick(&[[a; 3], [a, a, b], [a, b, a], [b, a, a], line]);
    match rng.below(5) {
        0 => *model,
        1 => [model[0], [model[0][0]; 3]],
        2 => [corners; 2],
        3 => moved([corners; 2], [[0; 3], point(rng, reach)]),
        _ => [corners, three(|| point(rng, reach))],
    }
}

/// Every coordinate at an end of its range, or nought.
pub fn extreme(rng: &mut Dice) -> Drawn {
    let Range { most_coordinate: most, least_tolerance: least, .. } = rng.range();
    let ends: &[i32] = if rng.one_in(2) { &[-most, most] } else { &[-most, 0, most] };
    let counts = [few(rng), few(rng)];
    let corner = |rng: &mut Dice| [0; 3].map(|_| rng.pick(ends));
    let pair = counts.map(|count| {
        let three = |rng: &mut Dice| [corner(rng), corner(rng), corner(rng)];
        (0..count).map(|_| [three(rng), three(rng)]).collect()
    });
    let mut drawn = finish(rng, most, pair);
    drawn.separations = rng.separations(|rng| rng.pick(&[0, 0, 1, 65_535, 65_536]));
    drawn.tolerance = rng.pick(&[least, least, 1_000, MOST_TOLERANCE - 1, MOST_TOLERANCE]);
    drawn.budget = drawn.budget.min(60);
    drawn
}
