//! Why a point was ruled out: worked rows, and what holds for every box that is named.

mod common;

use common::*;
use second::edition::Range;
use second::gap::{corners, Motion, Q};
use second::record::Record;
use second::refusals::Refusal;
use second::rng::Rng;
use second::search::log::{Miss, Side};
use second::search::Answer;
use second::why::{Discarded, Parts, Searched, ONE, TOLD};

const WORDS: usize = 4096;

/// A search of edition 1 or 2.
fn searched(record: &Record, words: usize) -> Result<Searched, Refusal> {
    Searched::of(record, Range::SHORTER, words)
}

/// A record's answer, and at each of these points the box that rules it out or the refusal.
fn check(record: Record, words: usize, answer: Answer, rows: &[(Parts, &str)]) {
    check_rows(&searched(&record, words).unwrap(), answer, rows);
}

#[test]
fn point_falls_through_the_face() {
    let rows = [
        ([0, 0, 0], "level 2 depths 2 0 0 box 0 0 0 axis z side +"),
        ([262143, 524288, 524288], "level 2 depths 2 0 0 box 0 0 0 axis z side +"),
        ([262144, 0, 0], "REFUSED 24"),
        ([0, 524288, 524289], "REFUSED 23"),
        ([1048577, 0, 0], "REFUSED 23"),
        ([u32::MAX, 1, 0], "REFUSED 23"),
        ([0, u32::MAX, 1], "REFUSED 23"),
        ([0, 1 << 31, 1 << 31], "REFUSED 23"),
    ];
    check(first_case(), WORDS, met([262144, 0, 0, 500, 5]), &rows);
}

#[test]
fn point_falls_to_a_close_answer() {
    let rows = [
        ([262144, 0, 0], "level 3 depths 3 0 0 box 2 0 0 axis z side +"),
        ([393215, 524288, 524288], "level 3 depths 3 0 0 box 2 0 0 axis z side +"),
        ([500000, 0, 0], "level 10 depths 5 3 2 box 15 0 0 axis x side +"),
        ([516095, 229376, 229376], "level 15 depths 7 4 4 box 62 3 3 axis z side +"),
        ([516096, 0, 0], "REFUSED 24"),
    ];
    let close = Record { tolerance: 16, ..first_case() };
    check(close, WORDS, met([516096, 229376, 229376, 16, 165]), &rows);
}

#[test]
fn point_beside_the_long_side() {
    let rows = [
        ([0, 0, 0], "level 1 depths 0 1 0 box 0 0 0 axis x side +"),
        ([1048576, 1048576, 0], "level 2 depths 0 1 1 box 0 1 0 axis y side +"),
        ([0, 524288, 524288], "level 7 depths 0 4 3 box 0 8 4 axis x side +"),
        ([0, 524287, 524288], "level 1 depths 0 1 0 box 0 0 0 axis x side +"),
        ([524288, 655360, 393216], "level 2 depths 0 1 1 box 0 1 0 axis y side +"),
        ([0, 1048576, 1], "REFUSED 23"),
    ];
    check(falls([150, 150, 0], [150, 150, 0], T), WORDS, clear(10), &rows);
}

#[test]
fn search_that_ends_inside_a_level() {
    let rows = [
        ([393215, 0, 0], "level 3 depths 3 0 0 box 2 0 0 axis z side +"),
        ([393216, 0, 0], "level 6 depths 4 1 1 box 6 0 0 axis z side +"),
        ([458751, 262144, 262144], "level 6 depths 4 1 1 box 6 0 0 axis z side +"),
    ];
    let poor = Record { tolerance: 100, budget: 30, ..first_case() };
    check(poor, WORDS, spent([458752, 0, 0, 125, 30]), &rows);
    check(first_case(), 2, room([0, 0, 0, 1000, 1]), &[([0, 0, 0], "REFUSED 24")]);
}

#[test]
fn first_axis_that_misses_is_named_and_either_side() {
    let both = "level 0 depths 0 0 0 box 0 0 0 axis x side -";
    let rows = [([0, 0, 0], both), ([1048576, 524288, 524288], both)];
    check(falls([-101, 0, 7], [-101, 0, 7], T), WORDS, clear(1), &rows);
    let below = falls([0, 0, -1000], [0, 0, -200], T);
    let below = Record { separations: [0, 0, 199], tolerance: 999, ..below };
    let rows = [([1048576, 0, 1048576], "level 0 depths 0 0 0 box 0 0 0 axis z side -")];
    check(below, WORDS, clear(1), &rows);
}

/// An edge falls across another.
fn crossing() -> Record {
    let still = [[0, -100, 0], [0, 100, 0]];
    ee(
        [[-100, 0, 100], [100, 0, 100], still[0], still[1]],
        [[-100, 0, -100], [100, 0, -100], still[0], still[1]],
    )
}

#[test]
fn edges_have_no_long_side() {
    let case = crossing();
    let rows = [
        ([262144, 524288, 524288], "level 7 depths 3 2 2 box 2 2 2 axis z side +"),
        ([393215, 1048576, 0], "level 5 depths 2 2 1 box 1 3 0 axis x side +"),
        ([491519, 524287, 524288], "REFUSED 24"),
        ([0, 1048577, 0], "REFUSED 23"),
    ];
    check(case, WORDS, met([458752, 458752, 458752, 13, 145]), &rows);
    assert!(searched(&case, WORDS).unwrap().why([0, ONE, ONE]).is_ok());
}

#[test]
fn edges_of_edition_3_at_odd_parts() {
    let rows = [
        ([1, 0, 0], "level 4 depths 2 1 1 box 0 0 0 axis z side +"),
        ([262143, 1048576, 1048576], "level 4 depths 2 1 1 box 0 1 1 axis z side +"),
        ([200001, 1048576, 0], "level 4 depths 2 1 1 box 0 1 0 axis z side +"),
        ([262144, 0, 0], "REFUSED 24"),
        ([262145, 1048575, 1], "REFUSED 24"),
        ([1, 1048577, 0], "REFUSED 23"),
    ];
    let case = Record { tolerance: 64, ..crossing() };
    let searched = Searched::of(&case, Range::LONGER, WORDS).unwrap();
    check_rows(&searched, met([262144, 262144, 262144, 50, 49]), &rows);
    let close = Record { tolerance: 63, ..case };
    assert_eq!(Searched::of(&close, Range::LONGER, WORDS).err(), Some(Refusal::Tolerance));
}

// u + v is odd where one of them is; a sum of halves would let two odd ones pass.
#[test]
fn face_of_edition_3_at_odd_parts() {
    let rows = [
        ([262143, 524287, 524289], "level 2 depths 2 0 0 box 0 0 0 axis z side +"),
        ([1, 524289, 524288], "REFUSED 23"),
        ([1, 524289, 524289], "REFUSED 23"),
        ([1048577, 0, 0], "REFUSED 23"),
        ([262144, 1, 0], "REFUSED 24"),
    ];
    let searched = Searched::of(&first_case(), Range::LONGER, WORDS).unwrap();
    check_rows(&searched, met([262144, 0, 0, 500, 5]), &rows);
}

#[test]
fn flag_turns_the_second_body_first() {
    let still = [[0, 200, 0], [0, -200, 0], [0, -200, 0], [0, -200, 0]];
    let case = Record { tolerance: 999, ..vf(still, still) };
    let rows = [([5, 6, 7], "level 0 depths 0 0 0 box 0 0 0 axis y side +")];
    check(case, WORDS, clear(1), &rows);
    check(Record { flags: 1, ..case }, WORDS, met([0, 0, 0, 0, 1]), &[([0; 3], "REFUSED 24")]);
}

#[test]
fn refused_in_the_order_of_the_papers() {
    let number = |record: Record, words: usize, point: Parts, lent: usize| {
        let told = searched(&record, words).and_then(|searched| searched.tell(point, lent));
        told.map_or_else(Refusal::number, |_| 0)
    };
    let (outside, late) = ([1048577, 0, 0], [262144, 0, 0]);
    let case = first_case();
    assert_eq!(number(Record { budget: 0, ..case }, 1, outside, 0), 6);
    assert_eq!(number(Record { cap: 1048577, ..case }, 1, outside, 0), 22);
    assert_eq!(number(case, 1, outside, 0), 7);
    assert_eq!(number(case, WORDS, outside, 0), 23);
    assert_eq!(number(case, WORDS, late, TOLD - 1), 14);
    assert_eq!(number(case, WORDS, [0; 3], TOLD - 1), 14);
    assert_eq!(number(case, WORDS, late, TOLD), 24);
    assert_eq!(number(case, WORDS, [0; 3], TOLD), 0);
}

#[test]
#[should_panic(expected = "the search checked the box")]
fn box_that_was_never_checked_is_not_named() {
    let mut searched = searched(&first_case(), WORDS).unwrap();
    assert!(searched.why([0; 3]).is_ok());
    searched.log[2].checked.remove(0);
    let _ = searched.why([0; 3]);
}

#[test]
#[should_panic(expected = "the search discarded no box")]
fn box_below_the_last_level_is_not_named() {
    let mut searched = searched(&first_case(), WORDS).unwrap();
    searched.log.truncate(2);
    let _ = searched.why([0; 3]);
}

/// Ends of the box, times Q.
fn ends(discarded: &Discarded) -> [[i128; 2]; 3] {
    [0, 1, 2].map(|n| {
        let side = Q >> discarded.depths[n];
        let low = i128::from(discarded.grid_box[n]) * side;
        [low, low + side]
    })
}

/// True where F on an axis is beyond the separation, on this side, at every corner of the box.
fn beyond(record: &Record, discarded: &Discarded, axis: usize, side: Side) -> bool {
    let (motion, d) = (Motion::of(record), i128::from(record.separations[axis]) * Q * Q);
    corners(ends(discarded)).into_iter().all(|corner| match side {
        Side::Above => motion.f(corner)[axis] > d,
        Side::Below => motion.f(corner)[axis] < -d,
    })
}

fn named_rightly(searched: &Searched, point: Parts, discarded: &Discarded) {
    let Discarded { level, depths, grid_box, miss: Miss { axis, side } } = *discarded;
    assert_eq!(level as u32, depths.iter().sum());
    for (part, [low, high]) in point.into_iter().zip(ends(discarded)) {
        // The upper end belongs to the next box, but for 1.
        assert!((low..high).contains(&i128::from(part)) || part == ONE && high == Q);
    }
    let other = |side: Side| if side == Side::Above { Side::Below } else { Side::Above };
    assert!(beyond(&searched.record, discarded, axis, side));
    assert!(!beyond(&searched.record, discarded, axis, other(side)));
    for earlier in 0..axis {
        for side in [side, other(side)] {
            assert!(!beyond(&searched.record, discarded, earlier, side));
        }
    }
    let logged = &searched.log[level];
    let found = logged.checked.iter().find(|checked| checked.grid_box == grid_box).unwrap();
    assert_eq!((logged.depths, found.missed), (depths, Some(discarded.miss)));
}

#[test]
fn named_boxes_hold_the_point_and_were_discarded_by_that_axis() {
    let mut rng = Rng::new(8, "ruled out");
    let mut named = 0;
    for flavour in ["tiny", "full2", "degenerate2", "extreme", "budget2", "full3", "deep3", "cap2"]
    {
        for (record, range) in files(flavour, 3).iter().flat_map(|file| ranged(file)) {
            let words = rng.pick(&[2, 7, 64, WORDS]);
            let Ok(searched) = Searched::of(&record, range, words) else { continue };
            for _ in 0..20 {
                let point = [(); 3].map(|()| rng.below(ONE as usize + 1) as u32);
                if let Ok(discarded) = searched.why(point) {
                    named_rightly(&searched, point, &discarded);
                    named += 1;
                }
            }
        }
    }
    assert!(named > 2000, "{named}");
}

#[test]
fn every_discarded_box_before_the_answered_time_is_named_by_its_low_corner() {
    let files =
        ["mixed2", "mixed3", "deep3", "cap2", "cap3"].into_iter().flat_map(|name| files(name, 6));
    for (record, range) in files.flat_map(|file| ranged(&file)) {
        let Ok(searched) = Searched::of(&record, range, WORDS) else { continue };
        for (level, logged) in searched.log.iter().enumerate() {
            for checked in &logged.checked {
                let low = [0, 1, 2].map(|n| checked.grid_box[n] * (ONE >> logged.depths[n]));
                let (Some(miss), Ok(named)) = (checked.missed, searched.why(low)) else { continue };
                let (depths, grid_box) = (logged.depths, checked.grid_box);
                assert_eq!(named, Discarded { level, depths, grid_box, miss });
            }
        }
    }
}
