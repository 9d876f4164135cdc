//! Records with collapsed, parallel, coincident and still parts.

use super::dice::Dice;
use super::shapes::{aim, finish, point, record};
use crate::record::{Point, Record, EDGE_EDGE, VERTEX_FACE};

/// A start and an end of four points.
type Points = [[Point; 4]; 2];

pub fn degenerate(rng: &mut Dice) -> Record {
    let reach = rng.pick(&[30, 100, 400, 1000, 100_000]);
    let (kind, points) = match rng.below(10) {
        0 => (VERTEX_FACE, collapsed_face(rng, reach)),
        1 => (VERTEX_FACE, collinear_face(rng, reach)),
        2 => (VERTEX_FACE, collapsing_face(rng, reach)),
        3 | 4 => (VERTEX_FACE, point_on_the_rim(rng, reach)),
        5 => (EDGE_EDGE, parallel_edges(rng, reach)),
        6 => (EDGE_EDGE, collinear_edges(rng, reach)),
        7 => (EDGE_EDGE, coincident_edges(rng, reach)),
        8 => (super::shapes::kind(rng), still(rng, reach)),
        _ => (super::shapes::kind(rng), alike(rng, reach)),
    };
    let record = record(rng, kind, reach, points);
    match rng.below(3) {
        0 => finish(rng, record),
        1 => aim(rng, record),
        _ => record,
    }
}

fn add(a: Point, b: Point) -> Point {
    [a[0] + b[0], a[1] + b[1], a[2] + b[2]]
}

fn times(factor: i32, a: Point) -> Point {
    a.map(|coordinate| factor * coordinate)
}

/// Two or three corners of the face are one point.
fn collapsed_face(rng: &mut Dice, reach: i32) -> Points {
    let (a, b) = (point(rng, reach), point(rng, reach));
    let face = rng.pick(&[[a, a, a], [a, a, b], [a, b, a], [b, a, a]]);
    let moved = if rng.one_in(2) { face } else { face.map(|p| times(-1, p)) };
    [behind(point(rng, reach), face), behind(point(rng, reach), moved)]
}

/// A point, then the face.
fn behind(p: Point, face: [Point; 3]) -> [Point; 4] {
    [p, face[0], face[1], face[2]]
}

/// The face's corners lie on one line.
fn collinear_face(rng: &mut Dice, reach: i32) -> Points {
    let (a, way) = (point(rng, reach), point(rng, reach / 4));
    let face = [a, add(a, times(rng.between(-3, 3), way)), add(a, times(2, way))];
    [behind(point(rng, reach), face), behind(point(rng, reach), face)]
}

/// A proper face shrinks to one point, or turns inside out.
fn collapsing_face(rng: &mut Dice, reach: i32) -> Points {
    let face = [point(rng, reach), point(rng, reach), point(rng, reach)];
    let last = [[face[0]; 3], [[0; 3]; 3], [face[0], face[2], face[1]]];
    let last = rng.pick(&last);
    [behind(point(rng, reach), face), behind(point(rng, reach), last)]
}

/// A point that stands on, or falls through, a corner, a side or the plane of a level face.
fn point_on_the_rim(rng: &mut Dice, reach: i32) -> Points {
    let side = 4 * (1 + rng.below((reach / 4) as usize) as i32);
    let face = [[0, 0, 0], [side, 0, 0], [0, side, 0]];
    let (half, part) = (side / 2, side / 4);
    let places = [(0, 0), (side, 0), (half, 0), (0, half), (half, half), (part, 3 * part)];
    let near = [(half + 1, half), (part, part), (side + 1, 0), (-1, half)];
    let (x, y) = if rng.one_in(3) { rng.pick(&near) } else { rng.pick(&places) };
    let height = rng.pick(&[0, 1, side, reach, 2 * reach]);
    let low = rng.pick(&[-height, -height, 0, height]);
    [behind([x, y, height], face), behind([x, y, low], face)]
}

/// Edges of one direction that pass each other.
fn parallel_edges(rng: &mut Dice, reach: i32) -> Points {
    let ways = [[reach, 0, 0], [reach, reach, 0], point(rng, reach)];
    let way = rng.pick(&ways);
    let (from, to) = (point(rng, reach), point(rng, reach));
    // The other edge stays closer to the middle, so that the two do meet.
    let other = point(rng, reach / 4);
    let still = [other, add(other, way)];
    [[from, add(from, way), still[0], still[1]], [to, add(to, way), still[0], still[1]]]
}

/// Edges on one line that slide along it.
fn collinear_edges(rng: &mut Dice, reach: i32) -> Points {
    let way = [[1, 0, 0], [0, 1, 1], [1, -1, 1]];
    let way = rng.pick(&way);
    let mut on_line = || times(rng.between(-reach, reach), way);
    let (a, b, c, d) = (on_line(), on_line(), on_line(), on_line());
    let slide = on_line();
    [[a, b, c, d], [add(a, slide), add(b, slide), c, d]]
}

/// The edges are one edge at the start, at the end, or always.
fn coincident_edges(rng: &mut Dice, reach: i32) -> Points {
    let (a, b, c, d) = (point(rng, reach), point(rng, reach), point(rng, reach), point(rng, reach));
    let one = [a, b, a, b];
    let turned = [a, b, b, a];
    let two = [a, b, c, d];
    rng.pick(&[[one, two], [two, one], [one, one], [turned, turned], [two, turned]])
}

/// Nothing moves; now and then all the points are one.
fn still(rng: &mut Dice, reach: i32) -> Points {
    let a = point(rng, reach);
    let mut points = [a; 4];
    if !rng.one_in(4) {
        points = super::shapes::four(|| point(rng, reach));
    }
    [points, points]
}

/// Both bodies move by the same way.
fn alike(rng: &mut Dice, reach: i32) -> Points {
    let points = super::shapes::four(|| point(rng, reach));
    let way = point(rng, 500_000);
    [points, points.map(|p| add(p, way))]
}
