//! Motions moved as a whole to where only the longer range reaches. F is a difference, so that no answer changes by it.

use super::dice::Dice;
use crate::edition::Range;
use crate::record::Record;

/// Of edition 3 mostly moved, at the start by one way and at the end by another; of another edition as it is.
pub fn moved_out(rng: &mut Dice, mut record: Record) -> Record {
    if stays(rng) {
        return record;
    }
    let (mirrored, second_body) = (record.flags & 1 == 1, record.second_body());
    for points in [&mut record.start, &mut record.end] {
        for axis in 0..3 {
            // y of a flagged second body is negated before F, and so goes the other way.
            let sign = |n: usize| if mirrored && axis == 1 && n >= second_body { -1 } else { 1 };
            let coordinates = points.iter_mut().map(|point| &mut point[axis]).enumerate();
            move_all(rng, coordinates.map(|(n, coordinate)| (sign(n), coordinate)).collect());
        }
    }
    record
}

/// The same of the positions of two bodies.
pub fn bodies_moved_out(rng: &mut Dice, positions: &mut [[Vec<i32>; 2]; 2]) {
    if stays(rng) {
        return;
    }
    for end in 0..2 {
        for axis in 0..3 {
            let lists = positions.iter_mut().map(|of_body| &mut of_body[end]);
            let coordinates = lists.flat_map(|list| list.iter_mut().skip(axis).step_by(3));
            move_all(rng, coordinates.map(|coordinate| (1, coordinate)).collect());
        }
    }
}

/// The same by one way at the start and at the end, so that bounds keep their distances too.
pub fn bodies_moved_as_one(rng: &mut Dice, positions: &mut [[Vec<i32>; 2]; 2]) {
    if stays(rng) {
        return;
    }
    for axis in 0..3 {
        let lists = positions.iter_mut().flatten();
        let coordinates = lists.flat_map(|list| list.iter_mut().skip(axis).step_by(3));
        move_all(rng, coordinates.map(|coordinate| (1, coordinate)).collect());
    }
}

fn stays(rng: &mut Dice) -> bool {
    rng.range() == Range::SHORTER || rng.one_in(3)
}

/// Coordinates of one axis, each with its sign, by one way; those that are refused stay what they are.
fn move_all(rng: &mut Dice, mut coordinates: Vec<(i32, &mut i32)>) {
    let range = rng.range();
    coordinates.retain(|(_, coordinate)| range.holds(**coordinate));
    let signed: Vec<i32> =
        coordinates.iter().map(|(sign, coordinate)| sign * **coordinate).collect();
    let way = way(rng, &signed);
    coordinates.into_iter().for_each(|(sign, coordinate)| *coordinate += sign * way);
}

/// A way that keeps all in the range: to one of its ends, just beyond the shorter one, anywhere, or none.
fn way(rng: &mut Dice, coordinates: &[i32]) -> i32 {
    let most = rng.range().most_coordinate;
    let least = coordinates.iter().copied().min().unwrap_or(0);
    let greatest = coordinates.iter().copied().max().unwrap_or(0);
    let (down, up) = (-most - least, most - greatest);
    let beyond = (Range::SHORTER.most_coordinate + 1 - greatest).clamp(down, up);
    let any = rng.between(down, up);
    rng.pick(&[0, down, up, beyond, any])
}
