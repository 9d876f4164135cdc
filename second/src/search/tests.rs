//! Tests of what a valid record cannot reach from outside.

use super::*;
use crate::record::EDGE_EDGE;
use crate::why::Searched;

/// Crossing edges that meet once, at thirds, so that no low corner lies on the contact.
fn crossing(tolerance: u32) -> Record {
    let (a, b, c) = (700_000, 350_000, 900_000);
    Record {
        kind: EDGE_EDGE,
        flags: 0,
        byte2: 0,
        byte3: 0,
        id: 1,
        separations: [0; 3],
        tolerance,
        budget: 1_000_000,
        cap: 0,
        start: [[-b, 0, b], [a, 0, b], [0, -c / 2, 0], [0, c, 0]],
        end: [[-b, 0, -a], [a, 0, -a], [0, -c / 2, 0], [0, c, 0]],
    }
}

/// The greatest depth of each range, and the last grid line there that is not above a third, in parts.
const DEEPEST: [(u32, u32); 2] = [(20, 349_525), (19, 349_524)];

// No tolerance in range lets a search reach three greatest depths, so this one goes past the check.
#[test]
fn floor_at_three_greatest_depths() {
    assert_eq!([Range::SHORTER, Range::LONGER].map(|range| range.deepest), [20, 19]);
    for (deepest, third) in DEEPEST {
        let (answer, trace) = Search::new(&crossing(0), deepest).run(1 << 19);
        let splits = 3 * deepest;
        assert_eq!(trace.level_ends.len() as u32, splits);
        // One survivor a level, so two boxes behind each split; behind the last one it is the upper half at depth 20, the lower at 19.
        let upper = deepest - 19;
        let ([t, u, v], count) = ([third; 3], 2 * splits + upper);
        assert_eq!(answer, Answer::Floor(Corner { t, u, v, excess: 2 - upper, count }));
    }
}

// The point of the floor stands in one box a level; the one beside it in t was discarded behind the last split of t that parts them.
#[test]
fn moment_before_the_floor_is_ruled_out() {
    for ((deepest, third), named) in DEEPEST.into_iter().zip([(20, 349_524), (18, 87_380)]) {
        let record = crossing(0);
        let (answer, Trace { log, .. }) = Search::new(&record, deepest).run(1 << 19);
        let searched = Searched { record, answer, log };
        assert_eq!(searched.why([third; 3]), Err(Refusal::NotRuledOut));
        // In edition 3 this moment is odd and stands inside a box.
        let before = searched.why([third - 1, third, third]).unwrap();
        assert_eq!((before.depths[0], before.grid_box[0]), named);
    }
}

#[test]
fn log_has_every_box_checked_in_order() {
    let (answer, trace) = search_traced(&crossing(16), Range::SHORTER, 4096);
    let checked: usize = trace.log.iter().map(|level| level.checked.len()).sum();
    assert_eq!(checked as u32, answer.count());
    for (number, level) in trace.log.iter().enumerate() {
        assert_eq!(level.depths.iter().sum::<u32>(), number as u32);
        assert!(level.checked.is_sorted_by_key(|checked| checked.grid_box));
    }
    let survivors = trace.log.iter().flat_map(|level| &level.checked);
    // One survivor a level, and the last one answers.
    assert_eq!(survivors.filter(|checked| checked.missed.is_none()).count(), trace.log.len());
}

#[test]
fn side_is_beyond_the_separation_and_not_at_it() {
    assert_eq!(beyond_side(-9, 5, 5), None);
    assert_eq!(beyond_side(5, 9, 5), None);
    assert_eq!(beyond_side(6, 9, 5), Some(Side::Above));
    assert_eq!(beyond_side(-9, -5, 5), None);
    assert_eq!(beyond_side(-9, -6, 5), Some(Side::Below));
}

#[test]
fn least_tolerance_answers_before_the_floor() {
    for range in [Range::SHORTER, Range::LONGER] {
        let least = range.least_tolerance;
        match search(&crossing(least), range, 4096) {
            Answer::Met(corner) => assert!(corner.t <= (Q / 3) as u32 && corner.excess <= least),
            other => panic!("{other:?}"),
        }
    }
}

#[test]
fn split_goes_to_the_largest_and_ties_to_t_then_u() {
    let split_parameter = |depths, differences| super::split_parameter(depths, 20, differences);
    assert_eq!(split_parameter([0, 0, 0], &[5, 5, 5]), 0);
    assert_eq!(split_parameter([0, 0, 0], &[4, 5, 5]), 1);
    assert_eq!(split_parameter([0, 0, 0], &[4, 4, 5]), 2);
    assert_eq!(split_parameter([1, 0, 0], &[8, 4, 4]), 0);
    assert_eq!(split_parameter([1, 0, 0], &[7, 3, 3]), 0);
    assert_eq!(split_parameter([1, 0, 1], &[7, 4, 9]), 2);
    assert_eq!(split_parameter([20, 0, 0], &[1 << 30, 1, 1]), 1);
    assert_eq!(split_parameter([20, 20, 3], &[1 << 30, 1 << 30, 0]), 2);
}

#[test]
fn parameter_at_its_greatest_depth_takes_no_part() {
    for (deepest, _) in DEEPEST {
        assert_eq!(split_parameter([deepest, 0, 0], deepest, &[1 << 30, 1, 1]), 1);
        assert_eq!(split_parameter([deepest - 1, 0, 0], deepest, &[1 << 30, 1, 1]), 0);
        assert_eq!(split_parameter([deepest, deepest, 3], deepest, &[1 << 30, 1 << 30, 0]), 2);
    }
}

#[test]
fn excess_is_rounded_up() {
    assert_eq!(round_up(0), 0);
    assert_eq!(round_up(1), 1);
    assert_eq!(round_up(Q * Q), 1);
    assert_eq!(round_up(Q * Q + 1), 2);
}
