//! The comparison of bodies with bounds: a right library passes, every wrong one is reported.

use crate::stub::bounds::{Fault, FAULTS};
use crate::stub::{assert_reported, bounds_library, library, ranges};
use crate::stub::{ranged_bounds_library, ranged_replace_library, ranged_walk_library};
use crate::{solved, Solved};
use second::beside::bodies::{bounds::compare_with, compare, tally::Tally, Case};
use second::beside::Library;

/// What differs by a library.
fn differences(library: &Library, solved: &Solved, tally: &mut Tally) -> Vec<String> {
    let Solved { case, answers } = solved;
    compare_with(library, case, answers, tally)
}

/// So many differing cases are no luck.
const ENOUGH: usize = 2;

/// How many of the cases differ; no more than enough are looked for.
fn reported(library: Library, cases: &[Solved]) -> usize {
    let differs = |case: &&Solved| !differences(&library, case, &mut Tally::default()).is_empty();
    cases.iter().filter(differs).take(ENOUGH).count()
}

/// Refused bodies, those of one block each, and those of several: flavours, and how many seeds of each.
const ALL: [(&str, u64); 16] = [
    ("bodies-bounds", 60),
    ("bodies-bounds3", 60),
    ("bodies-refusals", 40),
    ("bodies-refusals3", 20),
    ("bodies-lengths", 20),
    ("bodies-counts", 20),
    ("bodies-editions", 30),
    ("bodies-extreme3", 6),
    ("bodies-falling", 6),
    ("bodies-blocks", 20),
    ("bodies-blocks3", 12),
    ("bodies-blocks-refused", 20),
    ("bodies-through", 8),
    ("bodies-through3", 4),
    ("bodies-ended", 20),
    ("bodies-ended3", 8),
];
/// Those that go to an end of a range, or beyond it.
const ENDS: [(&str, u64); 4] = [
    ("bodies-extreme", 12),
    ("bodies-extreme3", 12),
    ("bodies-refusals", 80),
    ("bodies-refusals3", 80),
];

/// Those whose times are split as deep as it goes.
const DEEP: [(&str, u64); 2] = [("bodies-deep", 10), ("bodies-deep3", 10)];

fn cases(flavours: &[(&str, u64)]) -> Vec<Solved> {
    let of = |(flavour, seeds): &(&str, u64)| -> Vec<Solved> {
        (1..=*seeds).map(|seed| solved(seed, flavour)).collect()
    };
    flavours.iter().flat_map(of).collect()
}

#[test]
fn right_library_passes_and_wrong_ones_are_reported() {
    let cases = cases(&ALL);
    let found = each!(bounds_library, &cases,
        0 1 2 3 4 5 6 7 8 9 10 11 12 13 14 15 16 17 18 19 20 21 22 23 24 25 26 27 28 29 30 31 32 33 34 35 36 37 38
        39 40 41 42 43 44 45 46 47 48 49 50 51 52 53 54 55 56 57 58 59 60 61 62 63 64 65 66 67 68 69 70 71 72 73 74
        75 76 77 78 79 80 81 82 83 84 85 86 87);
    assert_reported(FAULTS, &found, &[Fault::None], ENOUGH);
}

#[test]
fn wrong_ranges_of_walks_are_reported() {
    let cases = cases(&[&DEEP[..], &ENDS].concat());
    let found = each!(ranged_walk_library, &cases, 0 1 2 3 4 5 6 7 8 9 10 11 12);
    assert_reported(ranges::FAULTS, &found, &[ranges::Fault::None], ENOUGH);
}

#[test]
fn wrong_ranges_of_bounds_are_reported() {
    use ranges::Fault::*;
    let cases = cases(&ENDS);
    // Neither a depth nor a tolerance matters to bounds.
    let unseen = [
        None,
        DeeperInThree,
        CloserInThree,
        CoarserInThree,
        ShallowerInTwo,
        CloserInTwo,
        CoarserInTwo,
    ];
    let found = each!(ranged_bounds_library, &cases, 0 1 2 3 4 5 6 7 8 9 10 11 12);
    assert_reported(ranges::FAULTS, &found, &unseen, ENOUGH);
    let found = each!(ranged_replace_library, &cases, 0 1 2 3 4 5 6 7 8 9 10 11 12);
    assert_reported(ranges::FAULTS, &found, &unseen, ENOUGH);
}

#[test]
fn bounds_are_part_of_the_comparison_of_bodies() {
    let case = Case::new(1, "bodies-bounds").unwrap();
    assert_eq!(compare(&library::<0>(), &case, &mut Tally::default()), Vec::<String>::new());
    assert_eq!(FAULTS[1], Fault::FourthLeftOut);
    let lines = compare(&bounds_library::<1>(), &case, &mut Tally::default());
    assert!(!lines.is_empty());
    assert!(lines.iter().all(|line| line.starts_with("taperhive_bounds, edition ")), "{lines:?}");
}

#[test]
fn tally_counts_what_was_compared() {
    let mut tally = Tally::default();
    for case in cases(&ALL).iter() {
        assert_eq!(differences(&library::<0>(), case, &mut tally), Vec::<String>::new());
    }
    let text = tally.to_string();
    for number in [3, 4, 5, 6, 7, 10, 13, 14, 21, 27] {
        assert!(text.contains(&format!(" {number}: ")), "{text}");
    }
    for nothing in ["; 0 walks", ", 0 queries passed", ", 0 lists", ", 0 triangles"] {
        assert!(!text.contains(nothing), "{text}");
    }
}
