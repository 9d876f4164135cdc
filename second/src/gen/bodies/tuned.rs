//! Bodies aimed at the exact count of a query, or at its greatest depth.

use super::{clumps, plates, Drawn};
use crate::edition::Range;
use crate::gen::deep;
use crate::gen::dice::Dice;
use crate::search::search;

/// Queries that are looked at for a count worth meeting.
const LOOKED_AT: usize = 40;

/// Any sound bodies of few triangles.
pub fn any(rng: &mut Dice) -> Drawn {
    match rng.below(8) {
        0..=2 => plates::near(rng),
        3 => plates::ties(rng),
        4 | 5 => clumps::near(rng),
        6 => clumps::touching(rng),
        _ => clumps::degenerate(rng),
    }
}

/// Corner 1 of A's triangle meets the face of B as in a record that splits t as deep as it goes.
pub fn deep(rng: &mut Dice) -> Drawn {
    let points = deep::points(rng);
    let Range { most_coordinate: most, least_tolerance, .. } = rng.range();
    let triangle = |corners: [usize; 3]| points.map(|points| corners.map(|n| points[n]));
    let drawn = Drawn::new(rng, most, [vec![triangle([0; 3])], vec![triangle([1, 2, 3])]]);
    let separations = rng.separations(|rng| rng.pick(&[0, 0, 1]));
    Drawn { separations, tolerance: least_tolerance, budget: rng.pick(&[600, 1000]), ..drawn }
}

/// The budget is 1 or 2, or the count of some query, one less or one more.
pub fn budget(rng: &mut Dice) -> Drawn {
    let drawn = any(rng);
    let asked =
        drawn.bodies().queries().map(|asked| search(&asked.record, rng.range(), 4096).count());
    let counts: Vec<u32> = asked.take(LOOKED_AT).filter(|count| *count > 1).collect();
    let count = if counts.is_empty() { 1 } else { rng.pick(&counts) };
    let budget = rng.pick(&[1, 2, count - 1, count, count + 1]);
    Drawn { budget: budget.max(1), ..drawn }
}
