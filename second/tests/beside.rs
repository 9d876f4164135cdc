//! The comparison itself: a right library passes, every wrong one is reported.

#[macro_use]
mod stub;

use second::beside::walk::{Programs, Walk};
use second::beside::{compare, process, report, tally::Tally, Case, Library};
use second::gen::flavours;
use std::fs;
use std::path::PathBuf;
use std::time::Duration;
use stub::{assert_reported, capped_library, caps, library, ranged_library, ranges, Fault, FAULTS};

const SEEDS: std::ops::Range<u64> = 1..3;

/// The flavours whose files are quick.
fn cases() -> Vec<Case> {
    let quick = flavours()
        .into_iter()
        .filter(|name| !name.starts_with("many") && !name.starts_with("queue"));
    let quick: Vec<&str> = quick.collect();
    let all = SEEDS.flat_map(|seed| quick.iter().map(move |name| Case::new(seed, name).unwrap()));
    // A wrong edition is seldom.
    all.chain((3..15).map(|seed| Case::new(seed, "damaged3").unwrap())).collect()
}

/// A file is compared by so many calls that one case is enough.
const ENOUGH: usize = 1;

/// How many of the cases differ; no more than enough are looked for.
fn reported(library: Library, cases: &[Case]) -> usize {
    let differs = |case: &&Case| !compare(&library, case, &mut Tally::default()).is_empty();
    cases.iter().filter(differs).take(ENOUGH).count()
}

#[test]
fn right_library_passes_and_wrong_ones_are_reported() {
    let cases = cases();
    let found = each!(library, &cases, 0 1 2 3 4 5 6 7 8 9 10 11 12 13 14 15 16 17 18 19);
    assert_reported(FAULTS, &found, &[Fault::None], ENOUGH);
}

#[test]
fn wrong_ranges_are_reported() {
    let cases = cases();
    let found = each!(ranged_library, &cases, 0 1 2 3 4 5 6 7 8 9 10 11 12);
    assert_reported(ranges::FAULTS, &found, &[ranges::Fault::None], ENOUGH);
}

#[test]
fn wrong_caps_are_reported() {
    let cases = cases();
    let found = each!(capped_library, &cases, 0 1 2 3 4 5 6 7 8 9 10 11 12 13);
    assert_reported(caps::FAULTS, &found, &[caps::Fault::None], ENOUGH);
}

#[test]
fn tally_counts_what_was_compared() {
    let mut tally = Tally::default();
    let case = Case::new(1, "refusals").unwrap();
    assert_eq!(compare(&library::<0>(), &case, &mut tally), Vec::<String>::new());
    let text = tally.to_string();
    for number in 1..=7 {
        assert!(text.contains(&format!(" {number}: ")), "{text}");
    }
    assert!(text.contains(" 13: ") && text.contains(" 14: "), "{text}");
}

#[test]
fn tally_counts_the_queries_of_each_edition() {
    let counted = |flavour: &str| {
        let (mut calls, mut program) = (Tally::default(), Tally::default());
        let case = Case::new(1, flavour).unwrap();
        assert_eq!(compare(&library::<0>(), &case, &mut calls), Vec::<String>::new());
        let sweep = self::program(&["sweep"]);
        assert_eq!(process::compare(&sweep, &case, &mut program), Vec::<String>::new());
        [calls, program].map(|tally| tally.to_string())
    };
    let some = |text: &str| [1, 2, 3].map(|n| !text.contains(&format!("edition {n}: 0")));
    for (edition, flavour) in (1..).zip(["tiny", "tiny2", "tiny3"]) {
        let [calls, program] = counted(flavour);
        assert_eq!(some(&program), [1, 2, 3].map(|n| n == edition), "{program}");
        // In process editions 2 and 3 are each other's twins.
        assert_eq!(some(&calls), [1, 2, 3].map(|n| (n == 1) == (edition == 1)), "{calls}");
    }
}

#[test]
fn twin_has_the_same_records_in_the_other_range() {
    assert!(Case::new(1, "tiny").unwrap().twin().is_none());
    for (flavour, edition) in [("tiny2", 3), ("leading2", 3), ("tiny3", 2)] {
        let case = Case::new(1, flavour).unwrap();
        let twin = case.twin().unwrap();
        assert_eq!((twin.edition().number(), twin.file.len()), (edition, case.file.len()));
        let differs = |at: &usize| case.file[*at] != twin.file[*at];
        let place = case.file.len() - 12;
        assert_eq!((0..case.file.len()).filter(differs).collect::<Vec<_>>(), [place]);
        assert_eq!(twin.twin().unwrap().file, case.file);
    }
}

#[test]
fn a_twin_that_differs_is_reported() {
    // Wrong in edition 3 alone, which no case here is of.
    let case = Case::new(1, "tiny2").unwrap();
    let found = compare(&ranged_library::<1>(), &case, &mut Tally::default());
    let of_answers = |line: &&String| line.contains("taperhive_answers");
    assert!(found.iter().filter(of_answers).count() > 0, "{found:?}");
    assert!(found.iter().filter(of_answers).all(|line| line.starts_with("as edition 3: ")));
}

/// The second program as a program, called so.
fn program(arguments: &[&str]) -> Vec<String> {
    let own = env!("CARGO_BIN_EXE_second");
    std::iter::once(own).chain(arguments.iter().copied()).map(str::to_string).collect()
}

#[test]
fn programs_are_compared_by_their_text() {
    let mut tally = Tally::default();
    let mut differences = |arguments: &[&str], flavour| {
        let case = Case::new(2, flavour).unwrap();
        process::compare(&program(arguments), &case, &mut tally).len()
    };
    for flavour in flavours() {
        assert_eq!(differences(&["sweep"], flavour), 0);
    }
    assert_eq!(differences(&["sweep", "4"], "queue"), 1);
    assert_eq!(differences(&["flavours"], "tiny"), 1);
    // Ends with a status other than 0.
    assert_eq!(differences(&["none"], "tiny"), 1);
    let absent = Case::new(2, "tiny").unwrap();
    assert_eq!(process::compare(&["./none".to_string()], &absent, &mut tally).len(), 1);
}

/// A folder of its own for a test's files.
fn folder(name: &str) -> PathBuf {
    std::env::temp_dir().join(format!("taperhive-{name}-{}", std::process::id()))
}

#[test]
fn differences_are_kept_and_fail_the_verdict() {
    let folder = folder("kept");
    let programs = Programs::by(|name| program(&[name]));
    let case = Case::new(3, "tiny").unwrap();
    let walk = |library| Walk { library, programs: &programs, folder: folder.clone() };
    assert!(walk(library::<0>()).only(&case));
    assert!(!folder.exists());
    assert!(!walk(library::<1>()).only(&case));
    assert_eq!(fs::read(folder.join("compare-3-tiny.queries")).unwrap(), case.file);
    let text = fs::read_to_string(folder.join("compare-3-tiny.txt")).unwrap();
    assert!(text.contains("seed 3, flavour tiny, words [0, 1, 2, 3,"), "{text}");
    assert!(text.contains("taperhive_answers, "), "{text}");
    assert!(text.contains("again: tools/compare --only 3 tiny\n"), "{text}");
    fs::remove_dir_all(folder).unwrap();
}

#[test]
fn comparing_nothing_fails() {
    let folder = folder("nothing");
    let programs = Programs::by(|name| program(&[name]));
    let library = library::<0>();
    let walk = Walk { library, programs: &programs, folder: folder.clone() };
    assert!(!walk.run(1, Duration::ZERO));
    assert!(walk.run(1, Duration::from_secs(6)));
    // Nothing is left of a comparison without a difference.
    assert_eq!(fs::read_dir(&folder).unwrap().count(), 0);
    fs::remove_dir_all(folder).unwrap();
}

#[test]
fn only_some_lines_of_many_are_kept() {
    let folder = folder("many");
    let case = Case::new(1, "empty").unwrap();
    let many: Vec<String> = (0..1000).map(|n| format!("difference {n}")).collect();
    report::keep(&folder, &case, &many).unwrap();
    let text = fs::read_to_string(folder.join("compare-1-empty.txt")).unwrap();
    assert!(text.contains("difference 19\n1000 differences\n"), "{text}");
    fs::remove_dir_all(folder).unwrap();
}
