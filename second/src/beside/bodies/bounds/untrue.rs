//! Lists of bounds that are not those of their bodies, made of the true ones.

use super::other_length;
use crate::bodies::bounds::BOUND;
use crate::rng::Rng;

/// A's list and B's.
pub type Lists = [Vec<i32>; 2];

/// Lists of so many numbers together are changed at every place, in one case of so many; else at a few.
const ALL_PLACES: usize = 24;
const ALL_PLACES_OF: usize = 3;
const FEW: usize = 3;

/// Exchanged, of other lengths, and with one number one more, one less, or any other.
pub fn untrue(rng: &mut Rng, lists: &Lists) -> Vec<Lists> {
    let [of_a, of_b] = lists.clone();
    let mut all = vec![[of_b, of_a]];
    for side in 0..2 {
        let right = lists[side].len();
        let lengths = [other_length(rng, right), right.saturating_sub(BOUND)];
        all.extend(lengths.map(|length| with(lists, side, |list| list.resize(length, 0))));
    }
    all.extend(changes(rng, lists).into_iter().map(|(side, place, by)| {
        with(lists, side, |list| list[place] = list[place].wrapping_add(by))
    }));
    all
}

/// The lists, one of them otherwise.
fn with(lists: &Lists, side: usize, otherwise: impl Fn(&mut Vec<i32>)) -> Lists {
    let mut lists = lists.clone();
    otherwise(&mut lists[side]);
    lists
}

/// Sides and places, and by how much the number there is changed.
fn changes(rng: &mut Rng, lists: &Lists) -> Vec<(usize, usize, i32)> {
    let of_side = |side: usize| (0..lists[side].len()).map(move |place| (side, place));
    let places: Vec<(usize, usize)> = (0..2).flat_map(of_side).collect();
    if places.len() <= ALL_PLACES && rng.one_in(ALL_PLACES_OF) {
        let both = |(side, place)| [(side, place, 1), (side, place, -1)];
        return places.into_iter().flat_map(both).collect();
    }
    let mut any = || {
        let ((side, place), number) = (rng.pick(&places), rng.draw() as i32);
        (side, place, rng.pick(&[1, -1, number]))
    };
    // There is none where both counts are 0.
    (0..FEW.min(places.len())).map(|_| any()).collect()
}
