//! Bounds of a body: the least and the greatest x, y, z of every 32 triangles, and the walk that is lent them.

use super::{answer as plain_answer, Bodies, BodiesAnswer, Body, Triangle};
use crate::edition::{Edition, Range};
use crate::record::Point;
use crate::refusals::Refusal;

/// Triangles of a block; the last one of a body may have fewer.
pub const BLOCK: usize = 32;
/// Numbers of a block's bound: least x, y, z, then greatest x, y, z.
pub const BOUND: usize = 6;

/// The bounds of a body, block after block; or 10, else 21, else 3.
pub fn bounds(edition: u8, body: &Body) -> Result<Vec<i32>, Refusal> {
    let range = Edition::of(edition)?.range();
    if !body.has_its_positions() {
        return Err(Refusal::Body);
    }
    check_coordinates(range, body.start.iter().chain(body.end))?;
    Ok((0..blocks(body.count)).flat_map(|block| bound(body, block)).collect())
}

/// The same into a lent list, of which what stands behind is kept; or 14 where it is too short.
pub fn write_bounds(edition: u8, body: &Body, lent: &mut [i32]) -> Result<(), Refusal> {
    let bounds = bounds(edition, body)?;
    let place = lent.get_mut(..bounds.len()).ok_or(Refusal::Space)?;
    place.copy_from_slice(&bounds);
    Ok(())
}

/// The answer to two bodies with lists of bounds beside them: passed over or asked, every query has the same one, so all are asked.
pub fn answer(bodies: &Bodies, lists: [&[i32]; 2], words: usize) -> BodiesAnswer {
    bounded(plain_answer(bodies, words), bodies, lists)
}

/// The same where the answer without lists is known: its refusal goes before that of an untrue list.
pub fn bounded(plain: BodiesAnswer, bodies: &Bodies, lists: [&[i32]; 2]) -> BodiesAnswer {
    let is_true = |body: &Body, list: &[i32]| bounds(bodies.edition, body).as_deref() == Ok(list);
    match plain {
        BodiesAnswer::Refused(_) => plain,
        _ if is_true(&bodies.a, lists[0]) && is_true(&bodies.b, lists[1]) => plain,
        _ => BodiesAnswer::Refused(Refusal::Bounds),
    }
}

/// True where two bounds are further apart on some axis than that axis's separation.
pub fn apart(one: &[i32], other: &[i32], separations: [u32; 3]) -> bool {
    let gap = |low: i32, high: i32| i64::from(low) - i64::from(high);
    (0..3).any(|axis| {
        let above = gap(one[axis], other[3 + axis]);
        let below = gap(other[axis], one[3 + axis]);
        above.max(below) > i64::from(separations[axis])
    })
}

/// How many blocks so many triangles make.
pub fn blocks(triangles: usize) -> usize {
    triangles.div_ceil(BLOCK)
}

/// Refusal 3.
pub(super) fn check_coordinates<'a>(
    range: Range,
    mut coordinates: impl Iterator<Item = &'a i32>,
) -> Result<(), Refusal> {
    if coordinates.all(|coordinate| range.holds(*coordinate)) {
        Ok(())
    } else {
        Err(Refusal::Coord)
    }
}

/// The bound of one block of a body whose coordinates are all in range.
pub(super) fn bound(body: &Body, block: usize) -> [i32; BOUND] {
    let behind = body.count.min(BLOCK * (block + 1));
    let points: Vec<[i64; 3]> =
        (BLOCK * block..behind).flat_map(|n| points(&body.triangle(n))).collect();
    let on = |axis: usize| points.iter().map(move |point| point[axis]);
    let least = [0, 1, 2].map(|axis| on(axis).min());
    let greatest = [0, 1, 2].map(|axis| on(axis).max());
    let number = |extreme: Option<i64>| {
        let number = extreme.expect("a block has a triangle");
        i32::try_from(number).expect("at most three times the range")
    };
    let [[x, y, z], [to_x, to_y, to_z]] = [least, greatest].map(|all| all.map(number));
    [x, y, z, to_x, to_y, to_z]
}

/// The corners of a triangle and the fourth one of its face, at the start and at the end.
fn points(triangle: &Triangle) -> Vec<[i64; 3]> {
    let wide = |corner: Point| corner.map(i64::from);
    let four = |corners: &[Point; 3]| {
        let [v1, v2, v3] = corners.map(wide);
        [v1, v2, v3, [0, 1, 2].map(|axis| v2[axis] + v3[axis] - v1[axis])]
    };
    triangle.iter().flat_map(four).collect()
}
