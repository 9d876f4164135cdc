//! What it takes to work out a body's bounds and to replace one triangle, by the body's triangles.

use super::bounded::{Calls, BY_HAND};
use super::bounds::{Kept, BLOCK};
use super::corpus::Class;
use crate::bench::measure::{by_turns, Contestant, ROUNDS};
use crate::bench::table::{self, Head};
use crate::bodies::{Body, MOST_TRIANGLES, NUMBERS};
use crate::edition::Edition;
use std::hint::black_box;

const COUNTS: [usize; 2] = [64, MOST_TRIANGLES];
const HEADS: [Head; 3] = [("proved", 1), ("by hand", 1), ("by bounds", 2)];

/// A call on a body that is kept.
type Called = fn(&Calls, u8, &mut Kept) -> u32;
const CALLED: [(&str, Called); 2] = [("taperhive_bounds", bounds), ("taperhive_replace", replace)];

/// Says the figures; false where the library and the hand do not leave the same.
pub fn run(proved: &Calls, edition: Edition, seed: u64) -> bool {
    let [class, ..] = Class::all(seed, edition);
    let cases = CALLED.into_iter().flat_map(|called| COUNTS.map(|count| (called, count)));
    let mut rows = Vec::new();
    for ((name, called), count) in cases {
        let [kept, _] = class.kept(count);
        let name = format!("{name}, {count} triangles");
        let by = |calls: &Calls| left(called, calls, edition.number(), &kept);
        if by(proved) != by(&BY_HAND) || by(proved).is_none() {
            println!("{name}: what is left is not the same");
            return false;
        }
        let two = [("proved", proved), ("by hand", &BY_HAND)];
        let mut two = two.map(|(name, calls)| Contestant {
            name,
            run: again(called, *calls, edition.number(), kept.clone()),
        });
        let [proved, by_hand] = by_turns(&mut two, ROUNDS).map(|one| one.nanoseconds);
        rows.push((name, vec![proved, by_hand, proved / by_hand]));
    }
    println!("\nbounds of a body, nanoseconds a call");
    table::print(&HEADS, &rows);
    true
}

/// The body after a call, where it returns 0 and changes bounds that are none.
fn left(called: Called, calls: &Calls, edition: u8, kept: &Kept) -> Option<Kept> {
    let mut left = Kept { bounds: vec![0; kept.bounds.len()], ..kept.clone() };
    let code = called(calls, edition, &mut left);
    (code == 0 && left.bounds.iter().any(|number| *number != 0)).then_some(left)
}

/// Each call leaves the body for the next one.
fn again(called: Called, calls: Calls, edition: u8, mut kept: Kept) -> Box<dyn FnMut() -> u64> {
    Box::new(move || u64::from(called(&calls, edition, black_box(&mut kept))))
}

fn bounds(calls: &Calls, edition: u8, kept: &mut Kept) -> u32 {
    let Kept { start, end, bounds } = kept;
    (calls.bounds)(edition, &Body { count: start.len() / NUMBERS, start, end }, bounds)
}

/// In the middle of the last block: where the triangle ends it begins then, and the other way round.
fn replace(calls: &Calls, edition: u8, kept: &mut Kept) -> u32 {
    let n = kept.body().count - BLOCK / 2;
    let mut corners = [0; 2 * NUMBERS];
    let (start, end) = corners.split_at_mut(NUMBERS);
    start.copy_from_slice(&kept.end[NUMBERS * n..][..NUMBERS]);
    end.copy_from_slice(&kept.start[NUMBERS * n..][..NUMBERS]);
    (calls.replace)(edition, kept, n, &corners)
}
