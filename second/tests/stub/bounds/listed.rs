//! Lists of bounds worked out by the stub.

use super::{first_due, holds_all, is_body, is_edition, Fault};
use second::beside::functions::BoundsArguments;
use second::bodies::{Body, NUMBERS};
use second::edition::Range;
use second::refusals::Refusal;
use std::slice::{from_raw_parts, from_raw_parts_mut};

pub unsafe fn called(fault: Fault, range: Range, of: BoundsArguments) -> u32 {
    let start = from_raw_parts(of.start, of.start_len);
    let end = from_raw_parts(of.end, of.end_len);
    let body = Body { count: of.count, start, end };
    let lent = from_raw_parts_mut(of.bounds, of.bounds_len);
    let sound = is_body(&body);
    let range = match fault {
        Fault::ShorterAlways => Range::SHORTER,
        Fault::LongerAlways => Range::LONGER,
        _ => range,
    };
    let list = if sound { list(fault, range, &body) } else { Vec::new() };
    let number = first_due(&due(fault, range, of.edition, &body, lent.len() < list.len()));
    let is_written = match fault {
        Fault::ShortRoomTaken | Fault::WrittenThoughShort => [0, 14].contains(&number),
        _ => number == 0,
    };
    if is_written {
        lent.iter_mut().zip(&list).for_each(|(place, number)| *place = *number);
        let rest = lent.iter_mut().skip(list.len());
        match fault {
            Fault::NumberBeyondBounds => rest.take(1).for_each(|place| *place ^= 1),
            Fault::RestCleared => rest.for_each(|place| *place = 0),
            _ => {}
        }
    }
    if fault == Fault::ShortRoomTaken && number == 14 {
        return 0;
    }
    number
}

/// The refusals in the fault's order.
fn due(fault: Fault, range: Range, edition: u8, body: &Body, short: bool) -> [(Refusal, bool); 4] {
    let taken = fault == Fault::EditionFourTaken && edition == 4;
    let edition = (Refusal::Edition, !is_edition(edition) && !taken);
    let no_body = (Refusal::Body, !is_body(body));
    let first_block = |list: &[i32]| list.iter().copied().take(32 * NUMBERS).collect::<Vec<_>>();
    let is_held = match fault {
        Fault::EndUnchecked => holds_all(range, body.start),
        Fault::FirstBlockChecked => {
            holds_all(range, &first_block(body.start)) && holds_all(range, &first_block(body.end))
        }
        _ => holds_all(range, body.start) && holds_all(range, body.end),
    };
    let (coordinates, space) = ((Refusal::Coord, !is_held), (Refusal::Space, short));
    match fault {
        Fault::BodyBeforeEdition => [no_body, edition, coordinates, space],
        Fault::CoordinatesBeforeBody => [edition, coordinates, no_body, space],
        Fault::SpaceBeforeCoordinates => [edition, no_body, space, coordinates],
        _ => [edition, no_body, coordinates, space],
    }
}

/// The list of a body, with the fault.
pub fn list(fault: Fault, range: Range, body: &Body) -> Vec<i32> {
    let size = match fault {
        Fault::BlocksOf31 => 31,
        Fault::BlocksOf33 => 33,
        _ => 32,
    };
    let all: Vec<usize> = (0..body.count).collect();
    let mut blocks: Vec<&[usize]> = all.chunks(size).collect();
    match fault {
        Fault::ShortBlockForgotten if blocks.len() > 1 => {
            blocks.retain(|block| block.len() == size);
        }
        Fault::WholeBody => blocks.iter_mut().for_each(|block| *block = &all),
        _ => {}
    }
    blocks.into_iter().flat_map(|block| bound(fault, range, body, block)).collect()
}

/// The bound of these triangles, with the fault.
pub fn bound(fault: Fault, range: Range, body: &Body, triangles: &[usize]) -> [i32; 6] {
    let points: Vec<[i64; 3]> = triangles.iter().flat_map(|n| points(fault, body, *n)).collect();
    let extreme = |axis: usize, sign: i64| {
        let most = points.iter().map(|point| sign * point[axis]).max().unwrap_or(0);
        (sign * most).clamp(i32::MIN.into(), i32::MAX.into()) as i32
    };
    let [least, greatest] = [-1, 1].map(|sign| [0, 1, 2].map(|axis| extreme(axis, sign)));
    let ([x, y, z], [to_x, to_y, to_z]) = (least, greatest);
    let most = range.most_coordinate;
    let right = [x, y, z, to_x, to_y, to_z];
    match fault {
        Fault::GreatestFirst => [to_x, to_y, to_z, x, y, z],
        Fault::AxisByAxis => [x, to_x, y, to_y, z, to_z],
        Fault::ClampedToTheRange => right.map(|number| number.clamp(-most, most)),
        _ => right,
    }
}

/// The points of one triangle, with the fault.
fn points(fault: Fault, body: &Body, n: usize) -> Vec<[i64; 3]> {
    let mut points = Vec::new();
    for (end, list) in [body.start, body.end].into_iter().enumerate() {
        let number = |corner: usize, axis: usize| i64::from(list[NUMBERS * n + 3 * corner + axis]);
        let [v1, v2, v3] = [0, 1, 2].map(|corner| [0, 1, 2].map(|axis| number(corner, axis)));
        let across = |from: [i64; 3], one: [i64; 3], other: [i64; 3]| {
            [0, 1, 2].map(|axis| one[axis] + other[axis] - from[axis])
        };
        let fourth = match fault {
            Fault::FourthLeftOut => v1,
            Fault::FourthOfTheStartAlone if end == 1 => v1,
            Fault::FourthOfTheEndAlone if end == 0 => v1,
            Fault::FourthAcrossFromAnother => across(v2, v1, v3),
            _ => across(v1, v2, v3),
        };
        let left_out = match fault {
            Fault::StartAlone => end == 1,
            Fault::EndAlone => end == 0,
            _ => false,
        };
        if !left_out {
            points.extend([v1, v2, v3, fourth]);
        }
    }
    points
}
