//! The comparison of bodies: a right library passes, every wrong one is reported.

#[macro_use]
#[path = "../stub/mod.rs"]
mod stub;

mod bounds;
mod laws;
mod rows;

use second::beside::bodies::{compare_with, tally::Tally, Case};
use second::beside::walk::{Programs, Walk};
use second::beside::Library;
use second::bodies::{walk, BodiesAnswer};
use second::gen::bodies::{flavours, LARGE};
use std::fs;
use stub::bodies::{Fault, CROWD, FAULTS};
use stub::{assert_reported, bodies_library, crowded_library, library, ranged_library, ranges};

/// Flavours that are mostly refused, and so are quick.
const REFUSED: [&str; 8] = [
    "bodies-refusals",
    "bodies-refusals3",
    "bodies-lengths",
    "bodies-lengths3",
    "bodies-counts",
    "bodies-counts3",
    "bodies-editions",
    "bodies-editions3",
];

/// A case and its right answers, one for each of its queue lengths.
struct Solved {
    case: Case,
    answers: Vec<BodiesAnswer>,
}

fn solved(seed: u64, flavour: &str) -> Solved {
    let case = Case::new(seed, flavour).unwrap();
    let answers = case.answers();
    Solved { case, answers }
}

/// Many cases that are mostly refused, then some of every other flavour of few triangles.
fn cases() -> Vec<Solved> {
    let refused = (1..60).flat_map(|seed| REFUSED.map(|flavour| solved(seed, flavour)));
    let mut others = flavours();
    others.retain(|name| !LARGE.contains(name) && !REFUSED.contains(name));
    let all = (1..6).flat_map(|seed| others.iter().map(move |flavour| solved(seed, flavour)));
    refused.chain(all).collect()
}

/// What differs by a library.
fn differences(library: &Library, solved: &Solved, tally: &mut Tally) -> Vec<String> {
    let Solved { case, answers } = solved;
    compare_with(library, case, answers, tally)
}

/// So many differing cases are no luck.
const ENOUGH: usize = 2;

/// How many of the cases differ; no more than enough are looked for.
fn reported(library: Library, cases: &[Solved]) -> usize {
    let differs = |case: &&Solved| !differences(&library, case, &mut Tally::default()).is_empty();
    cases.iter().filter(differs).take(ENOUGH).count()
}

#[test]
fn right_library_passes_and_wrong_ones_are_reported() {
    let cases = cases();
    let found = each!(bodies_library, &cases,
        0 1 2 3 4 5 6 7 8 9 10 11 12 13 14 15 16 17 18 19 20 21 22 23 24 25 26 27 28 29 30 31 32 33 34 35 36 37 38
        39 40 41 42 43 44 45 46 47 48 49 50 51 52 53 54 55 56 57);
    // No search of a few thousand queries comes to a sum of more than 32 bits.
    assert_reported(FAULTS, &found, &[Fault::None, Fault::SumCutTo32Bits], ENOUGH);
}

#[test]
fn wrong_ranges_are_reported() {
    let deep =
        (6..12).flat_map(|seed| ["bodies-deep", "bodies-deep3"].map(|name| solved(seed, name)));
    let cases: Vec<Solved> = deep.chain(cases()).collect();
    let found = each!(ranged_library, &cases, 0 1 2 3 4 5 6 7 8 9 10 11 12);
    assert_reported(ranges::FAULTS, &found, &[ranges::Fault::None], ENOUGH);
}

#[test]
fn sum_cut_to_32_bits_is_reported() {
    // 24 by 12 triangles, so 4,320 queries of a million boxes.
    let mut case = Case::new(1, "bodies-far").unwrap();
    case.drawn.counts = [24, 12];
    case.drawn.positions = [24, 12].map(|count| [vec![0; 9 * count], vec![0; 9 * count]]);
    case.words = vec![64];
    let right = [walk(case.drawn.bodies().queries(), |_| CROWD)];
    let found = |library| compare_with(&library, &case, &right, &mut Tally::default());
    assert_eq!(found(crowded_library::<0>()), Vec::<String>::new());
    assert_eq!(FAULTS[11], Fault::SumCutTo32Bits);
    let lines = found(crowded_library::<11>());
    assert!(lines.len() == 1 && lines[0].contains("told's word 7 is 0 and must be 1"), "{lines:?}");
}

#[test]
fn tally_counts_what_was_compared() {
    let mut tally = Tally::default();
    for case in cases().iter() {
        assert_eq!(differences(&library::<0>(), case, &mut tally), Vec::<String>::new());
    }
    let text = tally.to_string();
    for number in [3, 4, 5, 6, 7, 10, 14, 21] {
        assert!(text.contains(&format!(" {number}: ")), "{text}");
    }
    let calls = ["edition 1: 0,", "edition 2: 0,", "edition 3: 0,", "none: 0)"];
    for nothing in [" MET 0 ", " CLEAR 0 ", " SPENT 0 ", " ROOM 0 "].iter().chain(&calls) {
        assert!(!text.contains(*nothing), "{text}");
    }
    assert!(text.contains(" queries, ") && text.ends_with("; 0 cases differ"), "{text}");
}

#[test]
fn differences_are_kept_with_every_number_and_how_to_run_them_again() {
    let folder = std::env::temp_dir().join(format!("taperhive-bodies-{}", std::process::id()));
    let case = Case::new(2, "bodies-near").unwrap();
    let programs = Programs::by(|_| Vec::new());
    let walk = |library| Walk { library, programs: &programs, folder: folder.clone() };
    assert!(walk(library::<0>()).only_bodies(&case));
    assert!(!folder.exists());
    assert_eq!(FAULTS[15], Fault::QueriesFromZero);
    let one = (1..20).filter_map(|seed| Case::new(seed, "bodies-near"));
    let met = one.into_iter().find(|case| !walk(bodies_library::<15>()).only_bodies(case)).unwrap();
    let kept = |ending: &str| {
        let name = format!("compare-{}-bodies-near.{ending}", met.seed);
        fs::read_to_string(folder.join(name)).unwrap()
    };
    let again = format!("again: tools/compare --only {} bodies-near\n", met.seed);
    assert!(kept("txt").contains(&again) && kept("txt").contains("told's word 4 is "));
    let numbers = format!("B at the end, {} numbers: [", met.drawn.positions[1][1].len());
    assert!(kept("bodies").contains(&numbers), "{}", kept("bodies"));
    fs::remove_dir_all(folder).unwrap();
}
