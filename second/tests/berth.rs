//! The berth examples of the rules, and that the flag speaks of every point of the second body and of no other.

mod common;

use common::*;
use second::record::Record;
use second::refusals::Refusal;
use second::search::Answer;

#[test]
fn point_falls_through_the_face() {
    let case = first_case();
    assert_eq!(ask(case), met([262144, 0, 0, 500, 5]));
    assert_eq!(ask(Record { tolerance: 2000, ..case }), met([0, 0, 0, 1000, 1]));
    assert_eq!(ask(Record { tolerance: 1000, ..case }), met([0, 0, 0, 1000, 2]));
    assert_eq!(ask(Record { separations: [500; 3], ..case }), met([0, 0, 0, 500, 4]));
}

#[test]
fn budget_ends_with_the_recorded_corner() {
    let case = first_case();
    assert_eq!(ask(Record { budget: 4, ..case }), spent([0, 0, 0, 1000, 4]));
    assert_eq!(ask(Record { budget: 5, ..case }), met([262144, 0, 0, 500, 5]));
}

#[test]
fn queue_too_small_for_the_next_level() {
    let case = first_case();
    assert_eq!(ask_with(case, 2), room([0, 0, 0, 1000, 1]));
    assert_eq!(ask_with(case, 7), room([0, 0, 0, 1000, 3]));
    assert_eq!(ask_with(case, 8), met([262144, 0, 0, 500, 5]));
}

#[test]
fn point_that_stops_above() {
    let case = Record { tolerance: 999, ..falls([0, 0, 1000], [0, 0, 200], T) };
    assert_eq!(ask(Record { separations: [199; 3], ..case }), clear(1));
    let near = Record { separations: [200; 3], tolerance: 800, ..case };
    assert_eq!(ask(near), met([0, 0, 0, 800, 1]));
}

#[test]
fn point_beside_the_long_side() {
    assert_eq!(ask(falls([150, 150, 0], [150, 150, 0], T)), clear(10));
}

#[test]
fn flag_negates_y_of_the_second_body() {
    let still = [[0, 200, 0], [0, -200, 0], [0, -200, 0], [0, -200, 0]];
    let case = Record { tolerance: 999, ..vf(still, still) };
    assert_eq!(ask(case), clear(1));
    assert_eq!(ask(Record { flags: 1, ..case }), met([0, 0, 0, 0, 1]));
}

#[test]
fn edges_cross() {
    let still = [[0, -100, 0], [0, 100, 0]];
    let case = ee(
        [[-100, 0, 100], [100, 0, 100], still[0], still[1]],
        [[-100, 0, -100], [100, 0, -100], still[0], still[1]],
    );
    assert_eq!(ask(Record { separations: [100; 3], ..case }), met([0, 0, 0, 0, 1]));
}

#[test]
fn refused_in_the_order_of_the_numbers() {
    let case = first_case();
    let mut far = case;
    far.end[3][1] = 1_048_577;
    assert_eq!(ask(Record { tolerance: 15, ..case }), Answer::Refused(Refusal::Tolerance));
    assert_eq!(
        ask(Record { separations: [65_537; 3], ..case }),
        Answer::Refused(Refusal::Separation)
    );
    assert_eq!(ask(far), Answer::Refused(Refusal::Coord));
    let all = Record { tolerance: 15, separations: [65_537; 3], ..far };
    assert_eq!(ask(all), Answer::Refused(Refusal::Coord));
}

// Numbers worked out by hand, from here on.
#[test]
fn face_is_negated_whole() {
    // With the flag Fy is 50 - 100u + 100v: from -50 to 150 over the corners.
    let still = [[0, 250, 0], [0, -200, 0], [0, -300, 0], [0, -100, 0]];
    let case = Record { tolerance: 200, ..vf(still, still) };
    assert_eq!(ask(case), clear(1));
    assert_eq!(ask(Record { flags: 1, ..case }), met([0, 0, 0, 50, 1]));
    // One less than the width: u is split, and the lower half is the first survivor.
    let closer = Record { flags: 1, tolerance: 199, ..case };
    assert_eq!(ask(closer), met([0, 0, 0, 50, 2]));
}

#[test]
fn second_edge_is_negated_and_the_first_is_not() {
    // With the flag Fy is 100 - 200u: the second edge stands at y 200.
    let still = [[0, 300, 0], [0, 100, 0], [0, -200, 0], [0, -200, 0]];
    let case = Record { tolerance: 200, ..ee(still, still) };
    assert_eq!(ask(case), clear(1));
    assert_eq!(ask(Record { flags: 1, ..case }), met([0, 0, 0, 100, 1]));
    let closer = Record { flags: 1, tolerance: 199, ..case };
    assert_eq!(ask(closer), met([0, 0, 0, 100, 2]));
}

#[test]
fn x_and_z_stay_and_the_end_is_negated_too() {
    // Only y of the second body changes sign, at the start and at the end.
    let points = [[70, 80, 90], [70, -80, 90], [70, -80, 90], [70, -80, 90]];
    let moved = points.map(|[x, y, z]| [x, 3 * y, z]);
    let case = Record { tolerance: 160, flags: 1, ..vf(moved, points) };
    assert_eq!(ask(case), met([0, 0, 0, 0, 1]));
    // Fy from 16 units off to 0: the width is 16 if both ends are negated.
    let mut off = Record { tolerance: 16, ..case };
    off.start[0][1] += 16;
    assert_eq!(ask(off), met([0, 0, 0, 16, 1]));
}
