//! Lists of bounds worked out by the library, in every edition and every room.

use super::super::tally::Tally;
use super::super::{Case, Positions};
use super::length;
use crate::beside::buffers::{After, Lent};
use crate::beside::places::editions;
use crate::beside::Library;
use crate::bodies::bounds::{write_bounds, BOUND};
use crate::bodies::Body;
use crate::refusals::Refusal;
use crate::rng::Rng;

/// Both bodies of a case; what differs, a line each.
pub fn compare(library: &Library, case: &Case, tally: &mut Tally) -> Vec<String> {
    let mut rng = Rng::new(case.seed, &format!("lists {}", case.flavour));
    let positions = Positions::new(&mut rng, &case.drawn);
    let mut lists = Lists { library, positions: &positions, tally, rng, differences: Vec::new() };
    let bodies = positions.bodies();
    for body in [bodies.a, bodies.b] {
        let exact = length(&body);
        let more = lists.rng.pick(&[1, 2, BOUND, 3 * BOUND]);
        let less = lists.rng.below(exact.max(1));
        for lent in [exact, exact + more, exact.saturating_sub(1), less] {
            lists.call(bodies.edition, &body, lent);
        }
        for edition in editions(&mut lists.rng) {
            lists.call(edition, &body, exact);
        }
    }
    lists.differences
}

struct Lists<'a> {
    library: &'a Library,
    positions: &'a Positions<'a>,
    tally: &'a mut Tally,
    rng: Rng,
    differences: Vec<String>,
}

impl Lists<'_> {
    fn call(&mut self, edition: u8, body: &Body, room: usize) {
        let mut lent: Lent<i32> = Lent::new(self.rng.draw(), room);
        let mut must = lent.read().to_vec();
        let written = write_bounds(edition, body, &mut must);
        let number = written.map_or_else(Refusal::number, |()| 0);
        let code = self.library.bounds(edition, body, lent.slice());
        self.tally.listed(number);
        let count = body.count;
        let call = format!("taperhive_bounds, edition {edition}, {count} triangles, room {room}");
        if code != number {
            self.differences.push(format!("{call}: returned {code} and must return {number}"));
        }
        if let Some(difference) = lent.difference(&After::Begins(&must)) {
            self.differences.push(format!("{call}: the bounds' {difference}"));
        }
        self.differences.extend(self.positions.changes(&call));
    }
}
