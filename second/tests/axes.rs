//! contact, survival and excess by each axis's own separation; numbers worked out by hand.

mod common;

use common::*;
use second::edition::Edition::{One, Two};
use second::file::file_of;
use second::gap::{Motion, Q};
use second::record::{Point, Record, VERTEX_FACE};
use second::search::{search, Answer};
use second::text::sweep_any_length;

/// 5 cm sideways, 40 cm under the gangway.
const SWELL: [u32; 3] = [400, 400, 3200];

/// A point against a face of three equal points in the origin: F is where the point is.
fn moves(from: Point, to: Point, separations: [u32; 3]) -> Record {
    Record { separations, ..falls(from, to, O) }
}

fn stands(at: Point, separations: [u32; 3]) -> Record {
    moves(at, at, separations)
}

#[test]
fn plate_below_is_near_by_its_own_separation() {
    let plate = |z: i32| [[-8000, -8000, z], [8000, -8000, z], [-8000, 8000, z]];
    let over = |z: i32| {
        let tip = [-8000, -8000, 0];
        ask(Record { separations: SWELL, ..falls(tip, tip, plate(z)) })
    };
    // Over the plate's first corner F is (0, 0, -z) at the low corner, and z alone decides.
    assert_eq!(over(-3200), met([0, 0, 0, 0, 1]));
    assert_eq!(over(-3201), clear(1));
    assert_eq!(over(3200), met([0, 0, 0, 0, 1]));
    assert_eq!(over(3201), clear(1));
}

#[test]
fn each_axis_has_its_own_limit() {
    for (axis, most) in [(0, 400), (1, 400), (2, 3200)] {
        for sign in [1, -1] {
            let mut at = [400, -400, -3200];
            at[axis] = sign * most;
            assert_eq!(ask(stands(at, SWELL)), met([0, 0, 0, 0, 1]));
            at[axis] = sign * (most + 1);
            assert_eq!(ask(stands(at, SWELL)), clear(1));
        }
    }
    // The same numbers on other axes.
    assert_eq!(ask(stands([3200, 400, 400], [3200, 400, 400])), met([0, 0, 0, 0, 1]));
    assert_eq!(ask(stands([3200, 400, 400], [400, 3200, 400])), clear(1));
    assert_eq!(ask(stands([400, 3200, 400], [400, 3200, 400])), met([0, 0, 0, 0, 1]));
    assert_eq!(ask(stands([400, 3200, 400], SWELL)), clear(1));
}

#[test]
fn edges_have_it_too_and_the_flag_goes_before() {
    let still = [[0, 200, 0], [0, 200, 0], [0, -200, 0], [0, -200, 0]];
    let case = Record { separations: [0, 399, 0], ..ee(still, still) };
    assert_eq!(ask(case), clear(1));
    assert_eq!(ask(Record { separations: [0, 400, 0], ..case }), met([0, 0, 0, 0, 1]));
    assert_eq!(ask(Record { flags: 1, ..case }), met([0, 0, 0, 0, 1]));
}

#[test]
fn excess_comes_from_y_though_the_gap_is_z() {
    // F is (100, 700 to 300, 3000): beyond by -300, 300 and -200 at the start.
    let case = moves([100, 700, 3000], [100, 300, 3000], SWELL);
    assert_eq!(ask(Record { tolerance: 400, ..case }), met([0, 0, 0, 300, 1]));
    // One less than the width: the lower half has y from 500 on and misses; the upper one is recorded.
    assert_eq!(ask(Record { tolerance: 399, ..case }), met([524288, 0, 0, 100, 3]));
    let poor = Record { tolerance: 399, budget: 2, ..case };
    assert_eq!(ask(poor), spent([0, 0, 0, 300, 2]));
    let mirrored = moves([-100, -700, -3000], [-100, -300, -3000], SWELL);
    assert_eq!(ask(Record { tolerance: 400, ..mirrored }), met([0, 0, 0, 300, 1]));
}

#[test]
fn excess_is_the_largest_of_the_three() {
    let excess = |from: Point, expected: u32| {
        let case = moves(from, [300, 300, 3000], SWELL);
        assert_eq!(ask(Record { tolerance: 1000, ..case }), met([0, 0, 0, expected, 1]));
    };
    excess([500, 450, 3250], 100);
    excess([450, 501, 3300], 101);
    excess([450, 500, 3302], 102);
    excess([400, 400, 3200], 0);
    excess([400, 401, 2500], 1);
}

#[test]
fn excess_is_rounded_up_on_its_axis() {
    // z falls from 6400 to 3200, its separation, so that only the last cell of each level survives:
    // at depth 8 it is 12.5 wide and as far beyond, after 1 + 2 · 8 boxes.
    let case = moves([0, 0, 6400], [0, 0, 3200], SWELL);
    assert_eq!(ask(case), met([255 * 4096, 0, 0, 13, 17]));
    assert_eq!(ask(Record { separations: [400, 400, 3199], ..case }), clear(1));
}

#[test]
fn equal_separations_answer_as_edition_1_did() {
    for flavour in ["tiny", "degenerate", "extreme", "budget", "refusals", "mixed"] {
        for file in files(flavour, 10) {
            let records = records(&file);
            let [one, two] = [One, Two].map(|edition| file_of(edition, &records));
            let text = sweep_any_length(&one, 4096);
            assert_eq!(sweep_any_length(&two, 4096), text);
            assert_eq!(sweep_any_length(&file, 4096), text);
        }
    }
}

/// The earliest contact among the moments and places in sixteenths, over Q.
fn sampled_contact(record: &Record) -> Option<i128> {
    let motion = Motion::of(record);
    let limits = record.separations.map(|d| i128::from(d) * Q * Q);
    let parts = || (0..=16).map(|n| n * (Q / 16));
    let outside = |u, v| record.kind == VERTEX_FACE && u + v > Q;
    let touches = |t, u, v| {
        let f = motion.f([t, u, v]);
        !outside(u, v) && (0..3).all(|axis| f[axis].abs() <= limits[axis])
    };
    parts().find(|t| parts().any(|u| parts().any(|v| touches(*t, u, v))))
}

#[test]
fn no_contact_comes_before_the_answered_time() {
    let mut seen = [0; 2];
    let shapes = ["tiny2", "degenerate2", "full2", "tiny3", "degenerate3", "full3"];
    for file in shapes.iter().flat_map(|name| files(name, 8)) {
        for (record, range) in ranged(&file) {
            let Some(contact) = sampled_contact(&record) else { continue };
            match search(&record, range, 4096) {
                Answer::Met(c) | Answer::Spent(c) | Answer::Room(c) => {
                    assert!(i128::from(c.t) <= contact, "{record:?}");
                    seen[usize::from(contact > 0)] += 1;
                }
                other => panic!("{other:?} {record:?}"),
            }
        }
    }
    assert!(seen.iter().all(|number| *number >= 40), "{seen:?}");
}
