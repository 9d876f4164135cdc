//! The comparison of bodies with bounds: lists worked out, walks that are lent them, triangles replaced.

mod asked;
mod lent;
mod lists;
mod replacing;
mod untrue;
mod walks;

pub use lent::LentBody;

use super::tally::Tally;
use super::Case;
use crate::beside::Library;
use crate::bodies::bounds::{blocks, bounds, BOUND};
use crate::bodies::{BodiesAnswer, Body, MOST_TRIANGLES};
use crate::rng::Rng;

/// Every call of these three functions on one case, whose answers without bounds are known; what differs, a line each.
pub fn compare_with(
    library: &Library,
    case: &Case,
    answers: &[BodiesAnswer],
    tally: &mut Tally,
) -> Vec<String> {
    let mut differences = lists::compare(library, case, tally);
    differences.extend(walks::compare(library, case, answers, tally));
    differences.extend(replacing::compare(library, case, tally));
    differences
}

/// The numbers that a body's list has, as far as any body has so many.
fn length(body: &Body) -> usize {
    BOUND * blocks(body.count.min(MOST_TRIANGLES))
}

/// The true list of a body, or any numbers where none can be worked out.
fn list(rng: &mut Rng, edition: u8, body: &Body) -> Vec<i32> {
    let any = |_| (0..length(body)).map(|_| rng.draw() as i32).collect();
    bounds(edition, body).unwrap_or_else(any)
}

/// A length around the right one, or quite another.
fn other_length(rng: &mut Rng, right: usize) -> usize {
    let less = |by: usize| right.saturating_sub(by);
    rng.pick(&[less(1), right + 1, less(BOUND), right + BOUND, 0, right / 2, 2 * right + BOUND])
}
