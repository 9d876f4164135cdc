//! Motions that split t as deep as it goes while u and v still have to be split.

use super::dice::Dice;
use super::shapes::record;
use crate::record::{Point, Record, VERTEX_FACE};

/// Coordinates are off the ends of their range by less than this.
const OFF: usize = 40;

/// A vertex and a face with the least tolerance, or a little more.
pub fn deep(rng: &mut Dice) -> Record {
    let points = points(rng);
    let mut record = record(rng, VERTEX_FACE, rng.range().most_coordinate, points);
    if record.flags == 1 {
        // Negated twice, y of the face is what it was.
        let faces = [&mut record.start, &mut record.end].into_iter().flat_map(|all| &mut all[1..]);
        faces.for_each(|point| point[1] = -point[1]);
    }
    record.separations = rng.separations(|rng| rng.pick(&[0, 0, 1, 2]));
    record.tolerance = rng.range().least_tolerance + rng.pick(&[0, 0, 0, 1, 2]);
    record.budget = rng.pick(&[600, 1000, 2000]);
    record
}

/// On x everything crosses the whole range, v2 and v3 against p and v1: no t has a greater difference. On y v2 and v3 are apart, which
/// tells u from v. On z v1 is apart from both, so that u's and v's parts of a box add up to the tolerance, and p's way exceeds it.
pub fn points(rng: &mut Dice) -> [[Point; 4]; 2] {
    let most = rng.range().most_coordinate;
    // Where p meets the face: z says u + v, y says u minus v.
    let z = rng.between(-most, most / 2);
    let y = rng.between(-(most - z) / 2, (most - z) / 2);
    let fall = rng.between(0, most - z.abs());
    let mut points = [most, -most].map(|x| {
        let p = [x, y, if x > 0 { z + fall } else { z - fall }];
        [p, [x, 0, most], [-x, most, -most], [-x, -most, -most]]
    });
    // x stays what it is, mostly: with less of a difference t would not win the split that it takes no part in.
    let from = usize::from(!rng.one_in(4));
    let turn = rng.below(3);
    for point in points.as_flattened_mut() {
        for coordinate in point[from..].iter_mut().filter(|coordinate| coordinate.abs() == most) {
            let off = rng.pick(&[0, 0, 1]) * rng.below(OFF) as i32;
            *coordinate -= coordinate.signum() * off;
        }
        point.rotate_left(turn);
    }
    points
}
