//! Records by the shape of their coordinates.

use super::dice::Dice;
use crate::edition::Range;
use crate::gap::{Motion, Q};
use crate::record::{Point, Record, EDGE_EDGE, VERTEX_FACE};
use crate::refusals::MOST_TOLERANCE;
use crate::search::{search, Answer};

/// Four points, each by one call.
pub fn four(mut point: impl FnMut() -> Point) -> [Point; 4] {
    [point(), point(), point(), point()]
}

/// A point of a cube with this half side.
pub fn point(rng: &mut Dice, reach: i32) -> Point {
    [0; 3].map(|_| rng.between(-reach, reach))
}

/// A record of these points, its other numbers fit for motions of this reach.
pub fn record(rng: &mut Dice, kind: u8, reach: i32, points: [[Point; 4]; 2]) -> Record {
    let budget = budget(rng);
    Record {
        kind,
        flags: u8::from(rng.one_in(4)),
        byte2: 0,
        byte3: 0,
        id: 0,
        separations: rng.separations(|rng| separation(rng, reach)),
        tolerance: tolerance(rng, reach),
        budget,
        cap: 0,
        start: points[0],
        end: points[1],
    }
}

pub fn kind(rng: &mut Dice) -> u8 {
    rng.pick(&[VERTEX_FACE, EDGE_EDGE])
}

/// Mostly a few hundred, so that a file is swept quickly.
fn budget(rng: &mut Dice) -> u32 {
    match rng.below(30) {
        0 => 2000,
        1..=5 => rng.between(1, 20) as u32,
        _ => rng.between(1, 400) as u32,
    }
}

fn separation(rng: &mut Dice, reach: i32) -> u32 {
    let any = rng.between(0, reach / 2);
    rng.pick(&[0, 0, 0, 1, reach / 10, any]).min(65_536) as u32
}

fn tolerance(rng: &mut Dice, reach: i32) -> u32 {
    let least = rng.range().least_tolerance as i32;
    let close = rng.between(least, 4 * least);
    let octaves = rng.below(21);
    let any = rng.between(0, 1 << octaves);
    let tolerance = rng.pick(&[least, least, close, reach / 10, reach, any]);
    tolerance.clamp(least, MOST_TOLERANCE as i32) as u32
}

/// Moves the first body so that F is near nought at a random place.
pub fn aim(rng: &mut Dice, mut record: Record) -> Record {
    let u = rng.below(9);
    let v = rng.below(if record.kind == VERTEX_FACE { 9 - u } else { 9 });
    let place = [rng.below(9), u, v].map(|eighths| eighths as i128 * (Q / 8));
    let f = Motion::of(&record).f(place).map(|f| (f / (Q * Q)) as i32);
    let miss = rng.pick(&[0, 0, 1, 2, 20]);
    let off = point(rng, miss);
    let (first_body, most) = (record.second_body(), rng.range().most_coordinate);
    for points in [&mut record.start, &mut record.end] {
        for point in &mut points[..first_body] {
            *point = [0, 1, 2].map(|axis| (point[axis] - f[axis] + off[axis]).clamp(-most, most));
        }
    }
    record
}

/// A far larger budget where the answer comes quickly without it.
pub fn generous(rng: &mut Dice, record: Record) -> Record {
    let quick = Record { budget: 300, ..record };
    match search(&quick, rng.range(), 4096) {
        Answer::Met(_) | Answer::Clear { .. } => {
            let any = rng.between(301, 1_000_000) as u32;
            Record { budget: rng.pick(&[1000, 1_000_000, any]), ..record }
        }
        _ => record,
    }
}

/// Aimed and given a large budget, each now and then.
pub fn finish(rng: &mut Dice, record: Record) -> Record {
    let record = if rng.one_in(3) { record } else { aim(rng, record) };
    if rng.one_in(4) {
        generous(rng, record)
    } else {
        record
    }
}

/// Small coordinates, sometimes on a coarse lattice, where splits tie.
pub fn tiny(rng: &mut Dice) -> Record {
    let reach = rng.pick(&[3, 20, 50, 100, 200, 500, 1000, 3000]);
    let step = rng.pick(&[1, 1, 1, reach.min(10), reach / 2, reach]);
    let mut lattice = || point(rng, reach / step).map(|coordinate| step * coordinate);
    let start = four(&mut lattice);
    let mut end = four(&mut lattice);
    let still = if rng.one_in(3) { rng.below(5) } else { 4 };
    // Points from the still one on do not move, as if the second body stood.
    end[still..].copy_from_slice(&start[still..]);
    let kind = kind(rng);
    let record = record(rng, kind, reach, [start, end]);
    finish(rng, record)
}

/// The whole range: two bodies thrown at each other along one direction.
pub fn full(rng: &mut Dice) -> Record {
    // Half the range, so that a start plus a velocity stays inside it.
    let half = rng.range().most_coordinate / 2;
    let direction = point(rng, half);
    let kind = kind(rng);
    let first_body = if kind == VERTEX_FACE { 1 } else { 2 };
    let (mut start, mut end) = ([[0; 3]; 4], [[0; 3]; 4]);
    for n in 0..4 {
        let toward = if n < first_body { 1 } else { -1 };
        let (place, velocity) = (point(rng, half), point(rng, half));
        for axis in 0..3 {
            start[n][axis] = place[axis] + toward * direction[axis];
            end[n][axis] = start[n][axis] + velocity[axis] - toward * direction[axis];
        }
    }
    let reach = rng.pick(&[100, 10_000, half]);
    let record = record(rng, kind, reach, [start, end]);
    if rng.one_in(2) {
        return record;
    }
    finish(rng, record)
}

/// Every coordinate at an end of the range or nought; half have the greatest width, in editions 1 and 2 one of 2 to 63.
pub fn extreme(rng: &mut Dice) -> Record {
    let Range { most_coordinate: most, least_tolerance: least, .. } = rng.range();
    let ends: &[i32] = if rng.one_in(2) { &[-most, most] } else { &[-most, 0, most] };
    let mut corner = || [0; 3].map(|_| rng.pick(ends));
    let (mut start, mut end) = (four(&mut corner), four(&mut corner));
    let mut kind = kind(rng);
    if rng.one_in(2) {
        kind = VERTEX_FACE;
        widest(rng, &mut start, &mut end);
    }
    let mut record = record(rng, kind, most, [start, end]);
    record.separations = rng.separations(|rng| rng.pick(&[0, 0, 1, 65_535, 65_536]));
    record.tolerance = rng.pick(&[least, least, 1000, MOST_TOLERANCE - 1, MOST_TOLERANCE]);
    if rng.one_in(4) {
        record = generous(rng, record);
    }
    record
}

/// p and v1 from one end of an axis to the other, v2 and v3 against them.
fn widest(rng: &mut Dice, start: &mut [Point; 4], end: &mut [Point; 4]) {
    let axis = rng.below(3);
    let side = rng.end();
    for (n, sign) in [1, 1, -1, -1].into_iter().enumerate() {
        start[n][axis] = sign * side;
        end[n][axis] = -sign * side;
    }
    // Something off the axis keeps the first corner from being a contact.
    let other = (axis + 1) % 3;
    let off = rng.pick(&[0, 1, 100, side.abs()]);
    (start[0][other], end[0][other]) = (off, rng.pick(&[-off, off, 0]));
    for n in 1..4 {
        (start[n][other], end[n][other]) = (0, 0);
    }
}
