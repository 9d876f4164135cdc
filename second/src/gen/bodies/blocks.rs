//! Bodies of one block of triangles or of several, whose bounds touch, overlap, or miss each other by one.

use super::clumps::{add, any, moved};
use super::{Drawn, Pair};
use crate::bodies::bounds::{bounds, BLOCK, BOUND};
use crate::bodies::{Triangle, MOST_TRIANGLES};
use crate::gen::dice::Dice;
use crate::gen::shapes::point;
use crate::record::Point;

/// Boxes that the queries of a case may take together, about.
const BOXES: usize = 48_000;

fn size(rng: &mut Dice) -> i32 {
    rng.pick(&[5, 30, 100, 1_000])
}

/// Triangles of a body that fills some blocks, or all but one triangle of one, or one triangle of the next; seldom as many as there may be.
fn many(rng: &mut Dice) -> usize {
    if rng.one_in(20) {
        return MOST_TRIANGLES;
    }
    rng.pick(&[31, 32, 33, 33, 64, 65, 65])
}

fn few(rng: &mut Dice) -> usize {
    rng.pick(&[1, 1, 2, 2, 3])
}

/// One or more triangles around a place, standing or moving.
fn cluster(rng: &mut Dice, count: usize, reach: i32, place: Point) -> Vec<Triangle> {
    let still = rng.one_in(2);
    let mut one = || {
        let triangle = any(rng, reach);
        let triangle = if still { [triangle[0]; 2] } else { triangle };
        moved(triangle, [place; 2])
    };
    (0..count).map(|_| one()).collect()
}

/// A body of so many triangles, block after block in a line, each so far from the one before it.
fn body(rng: &mut Dice, count: usize, reach: i32, step: i32) -> Vec<Triangle> {
    let (axis, step) = (rng.below(3), rng.pick(&[-step, step]));
    let mut triangles = Vec::new();
    for block in 0..count.div_ceil(BLOCK) {
        let in_block = BLOCK.min(count - triangles.len());
        triangles.extend(cluster(rng, in_block, reach, on(axis, step * block as i32)));
    }
    triangles
}

/// The point of an axis that is so far from nought.
fn on(axis: usize, far: i32) -> Point {
    let mut point = [0; 3];
    point[axis] = far;
    point
}

/// Numbers with which the pairs take no long time; separations often as far from each other as the shapes are large.
fn finish(rng: &mut Dice, reach: i32, pair: Pair) -> Drawn {
    let queries = 15 * pair[0].len() * pair[1].len();
    let mut drawn = Drawn::new(rng, reach, pair);
    drawn.budget = drawn.budget.min((BOXES / queries).max(2) as u32);
    if rng.one_in(2) {
        let far = reach as u32;
        drawn.separations = rng.separations(|rng| rng.pick(&[0, 1, far / 2, far]));
    }
    drawn
}

/// A few triangles each, so that each body is one block, and their bounds meet.
pub fn meeting(rng: &mut Dice) -> Drawn {
    let reach = rng.pick(&[5, 30, 100, 1_000, 60_000]);
    let counts = [few(rng), few(rng)];
    let pair = counts.map(|count| cluster(rng, count, reach, [0; 3]));
    let drawn = finish(rng, reach, pair);
    met(rng, drawn)
}

/// Many triangles with few or with many, whose blocks lie apart or not; the bounds of two of them meet.
pub fn many_blocks(rng: &mut Dice) -> Drawn {
    let reach = size(rng);
    let many = many(rng);
    let other = if many <= 33 && rng.one_in(6) { rng.pick(&[31, 33]) } else { few(rng) };
    let step = rng.pick(&[reach, 7 * reach, 7 * reach, 20 * reach]);
    let mut pair = [many, other].map(|count| body(rng, count, reach, step));
    if rng.one_in(2) {
        pair.reverse();
    }
    let drawn = finish(rng, reach, pair);
    met(rng, drawn)
}

/// Two triangles come through one block of several and are apart from it at the start: the other blocks are passed over behind a time that is not 0.
pub fn through(rng: &mut Dice) -> Drawn {
    let (reach, many) = (size(rng), rng.pick(&[33, 64, 65]));
    let b = body(rng, many, reach, 20 * reach);
    let (place, axis) = (b[rng.below(many)][0][0], rng.below(3));
    let ways = [6, -6].map(|times| add(place, on(axis, times * reach)));
    let a = (0..2).map(|_| moved([any(rng, reach)[0]; 2], ways)).collect();
    let mut pair = [a, b];
    if rng.one_in(3) {
        pair.reverse();
    }
    let drawn = Drawn::new(rng, reach, pair);
    let tolerance = drawn.tolerance.clamp(rng.range().least_tolerance, 2 * reach as u32 + 64);
    Drawn { separations: [0, 1, 2].map(|n| n * reach as u32 / 8), tolerance, budget: 60, ..drawn }
}

/// Few triangles of A beside one block of B, of which one touches one of them at the start: what stands behind is neither asked nor passed over.
pub fn ended(rng: &mut Dice) -> Drawn {
    let reach = size(rng);
    let counts = [few(rng), rng.pick(&[33, 64, 65])];
    let step = rng.pick(&[7 * reach, 20 * reach]);
    let b = body(rng, counts[1], reach, step);
    let touched = b[rng.below(counts[1])];
    let place = touched[0][0];
    let mut a = cluster(rng, counts[0], reach, place);
    let away = point(rng, 3 * reach);
    let touching = rng.below(counts[0]);
    a[touching] = [touched[0], touched[0].map(|corner| add(corner, away))];
    let mut pair = [a, b];
    if rng.one_in(3) {
        pair.swap(0, 1);
    }
    finish(rng, reach, pair)
}

/// A moved so that a block of it and one of B are apart on one axis by the separation, or by one less or more, and mostly not on the others.
fn met(rng: &mut Dice, mut drawn: Drawn) -> Drawn {
    let bound = |rng: &mut Dice, side: usize| {
        let bodies = drawn.bodies();
        let list = bounds(drawn.edition, [&bodies.a, &bodies.b][side]).expect("a sound body");
        let place = BOUND * rng.below(list.len() / BOUND);
        list[place..place + BOUND].to_vec()
    };
    let [a, b] = [bound(rng, 0), bound(rng, 1)];
    let meeting = rng.below(3);
    let mut way = [0; 3];
    for axis in 0..3 {
        let d = drawn.separations[axis] as i32;
        // From where A's least is B's greatest to where A's greatest is B's least.
        let (most, least) = (b[3 + axis] - a[axis], b[axis] - a[3 + axis]);
        let beyond = d + rng.pick(&[-1, -1, 0, 0, 0, 1, 1, 2]);
        let any = rng.between(least, most);
        way[axis] = match axis == meeting || rng.one_in(8) {
            true => rng.pick(&[most + beyond, least - beyond]),
            false => rng.pick(&[(least + most) / 2, any]),
        };
    }
    let lists = drawn.positions[0].iter_mut();
    for (n, coordinate) in lists.flat_map(|list| list.iter_mut().enumerate()) {
        *coordinate += way[n % 3];
    }
    drawn
}
