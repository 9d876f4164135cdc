//! Pairs of bodies at random, by flavour; each depends on the seed and the flavour only.

mod bad;
mod blocks;
mod clumps;
mod plates;
mod tuned;
pub mod words;

use super::dice::Dice;
use super::far::{bodies_moved_as_one, bodies_moved_out};
use super::{named, shapes};
use crate::bodies::{Bodies, Body, Triangle, MOST_TRIANGLES};
use crate::edition::Edition;
use crate::record::VERTEX_FACE;

/// Two bodies, sound or not, with positions of their own.
#[derive(Clone, Debug, PartialEq, Eq)]
pub struct Drawn {
    /// Whose range is asked for; any number.
    pub edition: u8,
    pub separations: [u32; 3],
    pub tolerance: u32,
    pub budget: u32,
    /// Triangles that A and B are said to have.
    pub counts: [usize; 2],
    /// A at the start and at the end, then B.
    pub positions: [[Vec<i32>; 2]; 2],
}

/// Triangles of A, then of B.
type Pair = [Vec<Triangle>; 2];
type Make = fn(&mut Dice) -> Drawn;

/// Every flavour's name in the shorter range and in the longer, and what makes its bodies.
const FLAVOURS: [([&str; 2], Make); 18] = [
    (["bodies-near", "bodies-near3"], plates::near),
    (["bodies-far", "bodies-far3"], plates::far),
    (["bodies-ties", "bodies-ties3"], plates::ties),
    (["bodies-falling", "bodies-falling3"], plates::falling),
    (["bodies-clumps", "bodies-clumps3"], clumps::near),
    (["bodies-touching", "bodies-touching3"], clumps::touching),
    (["bodies-start", "bodies-start3"], clumps::at_the_start),
    (["bodies-together", "bodies-together3"], clumps::together),
    (["bodies-degenerate", "bodies-degenerate3"], clumps::degenerate),
    (["bodies-extreme", "bodies-extreme3"], clumps::extreme),
    (["bodies-deep", "bodies-deep3"], tuned::deep),
    (["bodies-budget", "bodies-budget3"], tuned::budget),
    (["bodies-queue", "bodies-queue3"], tuned::any),
    (["bodies-refusals", "bodies-refusals3"], bad::refused),
    (["bodies-lengths", "bodies-lengths3"], bad::of_other_lengths),
    (["bodies-counts", "bodies-counts3"], bad::of_other_counts),
    (["bodies-editions", "bodies-editions3"], bad::of_no_edition),
    (LARGE, plates::whole),
];

/// Those whose bounds matter, which a way of its own at the start and at the end would change.
const BOUNDED: [([&str; 2], Make); 5] = [
    (["bodies-bounds", "bodies-bounds3"], blocks::meeting),
    (["bodies-blocks", "bodies-blocks3"], blocks::many_blocks),
    (["bodies-through", "bodies-through3"], blocks::through),
    (["bodies-ended", "bodies-ended3"], blocks::ended),
    (["bodies-blocks-refused", "bodies-blocks-refused3"], bad::in_some_block),
];

/// The flavour of as many triangles as two bodies may have.
pub const LARGE: [&str; 2] = ["bodies-256", "bodies-256-3"];

/// The flavours' names.
pub fn flavours() -> Vec<&'static str> {
    FLAVOURS.iter().chain(&BOUNDED).flat_map(|(names, _)| *names).collect()
}

/// The bodies of a seed and a flavour, if there is such a flavour.
pub fn generate(seed: u64, flavour: &str) -> Option<Drawn> {
    let bounded = named(&BOUNDED, flavour);
    let (place, make) = bounded.or_else(|| named(&FLAVOURS, flavour))?;
    let mut rng = Dice::new(seed, flavour, [Edition::Two, Edition::Three][place]);
    let mut drawn = make(&mut rng);
    match bounded {
        Some(_) => bodies_moved_as_one(&mut rng, &mut drawn.positions),
        None => bodies_moved_out(&mut rng, &mut drawn.positions),
    }
    // Edition 1 has the same range.
    if drawn.edition == Edition::Two.number() && rng.one_in(2) {
        drawn.edition = Edition::One.number();
    }
    Some(drawn)
}

impl Drawn {
    /// Two sound bodies, their other numbers fit for motions of this reach.
    fn new(rng: &mut Dice, reach: i32, triangles: Pair) -> Drawn {
        let numbers = shapes::record(rng, VERTEX_FACE, reach, [[[0; 3]; 4]; 2]);
        Drawn {
            edition: rng.edition.number(),
            separations: numbers.separations,
            tolerance: numbers.tolerance,
            budget: numbers.budget,
            counts: triangles.each_ref().map(Vec::len),
            positions: triangles.map(|triangles| positions(&triangles)),
        }
    }

    pub fn bodies(&self) -> Bodies<'_> {
        let [a, b] = [0, 1].map(|side| {
            let [start, end] = &self.positions[side];
            Body { count: self.counts[side], start, end }
        });
        let Drawn { edition, separations, tolerance, budget, .. } = *self;
        Bodies { edition, a, b, separations, tolerance, budget }
    }
}

/// Nine numbers a triangle, at the start and at the end.
fn positions(triangles: &[Triangle]) -> [Vec<i32>; 2] {
    [0, 1].map(|end| triangles.iter().flat_map(|triangle| triangle[end]).flatten().collect())
}

/// Triangles of a body: one, a few, or up to twelve.
fn count(rng: &mut Dice) -> usize {
    match rng.below(4) {
        0 => 1,
        1 | 2 => 1 + rng.below(4),
        _ => 1 + rng.below(12),
    }
}

/// Every corner of both bodies at both ends by one rule.
fn each_point(pair: &mut Pair, mut rule: impl FnMut(&mut [i32; 3])) {
    pair.iter_mut().flatten().flatten().flatten().for_each(&mut rule);
}

/// Axes turned alike in every point: which axis is which changes, and nothing else.
fn turned(rng: &mut Dice, mut pair: Pair) -> Pair {
    let turn = rng.below(3);
    each_point(&mut pair, |point| point.rotate_left(turn));
    if rng.one_in(2) {
        each_point(&mut pair, |point| point.swap(0, 1));
    }
    pair
}

/// As many triangles as a body may have at most.
fn is_whole(drawn: &Drawn) -> bool {
    drawn.counts.iter().any(|count| *count >= MOST_TRIANGLES)
}
