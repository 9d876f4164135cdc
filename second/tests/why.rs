//! The comparison of `why`: a right library passes, every wrong one is reported.

#[macro_use]
mod stub;

use second::beside::walk::{Programs, Walk};
use second::beside::why::{compare, program, tally::Tally};
use second::beside::{Case, Library};
use second::gen::flavours;
use std::fs;
use stub::why::{Fault, FAULTS};
use stub::{assert_reported, library, ranged_library, ranges, why_library};

/// The flavours whose files are quick.
fn cases() -> Vec<Case> {
    let mut quick = flavours();
    quick.retain(|name| !name.starts_with("many") && !name.starts_with("queue"));
    (1..4).flat_map(|seed| quick.iter().map(move |name| Case::new(seed, name).unwrap())).collect()
}

/// So many differing cases are no luck.
const ENOUGH: usize = 3;

/// How many of the cases differ; no more than enough are looked for.
fn reported(library: Library, cases: &[Case]) -> usize {
    let differs = |case: &&Case| !compare(&library, case, &mut Tally::default()).is_empty();
    cases.iter().filter(differs).take(ENOUGH).count()
}

#[test]
fn right_library_passes_and_wrong_ones_are_reported() {
    let cases = cases();
    let found = each!(why_library, &cases,
        0 1 2 3 4 5 6 7 8 9 10 11 12 13 14 15 16 17 18 19 20 21 22 23 24 25
        26 27 28 29 30 31 32 33 34 35 36 37 38 39 40 41 42 43 44 45 46 47 48 49 50 51 52 53
        54 55 56 57 58 59 60 61 62 63 64 65 66 67);
    assert_reported(FAULTS, &found, &[Fault::None], ENOUGH);
}

#[test]
fn wrong_ranges_are_reported() {
    let refused = |seed| ["refusals2", "refusals3"].map(|name| Case::new(seed, name).unwrap());
    let refused = (4..20).flat_map(refused);
    let cases: Vec<Case> = refused.chain(cases()).collect();
    let found = each!(ranged_library, &cases, 0 1 2 3 4 5 6 7 8 9 10 11 12);
    assert_reported(ranges::FAULTS, &found, &[ranges::Fault::None], ENOUGH);
}

#[test]
fn tally_counts_what_was_asked() {
    let mut tally = Tally::default();
    // Wrong counts are seldom.
    let damaged = (4..20).map(|seed| Case::new(seed, "damaged").unwrap());
    for case in cases().into_iter().chain(damaged) {
        assert_eq!(compare(&library::<0>(), &case, &mut tally), Vec::<String>::new());
    }
    let text = tally.to_string();
    let (ruled_out, refused) = text.split_once("; refusals by number").unwrap();
    for number in (1..=14).chain([22, 23, 24]) {
        assert!(refused.contains(&format!(" {number}: ")), "{text}");
    }
    let (_, levels) = ruled_out.split_once("; by level").unwrap();
    for level in 0..50 {
        assert!(levels.contains(&format!(" {level}: ")), "{text}");
    }
    for nothing in ["MET 0", "CLEAR 0", "SPENT 0", "ROOM 0", "- 0 ", "+ 0 ", "+ 0;"] {
        assert!(!text.contains(nothing), "{text}");
    }
    assert!(text.ends_with("; 0 files differ"), "{text}");
}

/// A program of its own, made of the second program by a line of shell.
fn shell(line: &str) -> Vec<String> {
    let line = line.replace("WHY", concat!(env!("CARGO_BIN_EXE_second"), " why"));
    ["sh", "-c", &line, "sh"].map(str::to_string).to_vec()
}

#[test]
fn programs_are_compared_by_their_line() {
    let mut tally = Tally::default();
    for flavour in flavours() {
        let case = Case::new(2, flavour).unwrap();
        let right = shell("WHY \"$@\"");
        assert_eq!(program::compare(&right, &case, &mut tally), Vec::<String>::new());
    }
    let text = tally.to_string();
    for number in ["8", "9", "12", "13", "15", "23", "24"] {
        assert!(text.contains(&format!(" {number}: ")), "{text}");
    }
}

#[test]
fn wrong_programs_are_reported() {
    let wrong = [
        "WHY $1 $2 $4 $3",
        "WHY $1 $3 $2 $4",
        "WHY \"$@\"; echo",
        "printf %s \"$(WHY \"$@\")\"",
        "WHY \"$@\" | tr + -",
        "WHY \"$@\"; exit 1",
    ];
    let cases: Vec<Case> = (1..8).filter_map(|seed| Case::new(seed, "full2")).collect();
    for line in wrong {
        let differences = |case| program::compare(&shell(line), case, &mut Tally::default());
        let found: Vec<String> = cases.iter().flat_map(differences).collect();
        assert!(!found.is_empty() && found.iter().all(|found| found.starts_with("why ")), "{line}");
    }
}

#[test]
fn differences_are_kept_with_the_point() {
    let folder = std::env::temp_dir().join(format!("taperhive-why-{}", std::process::id()));
    let programs =
        Programs::by(|name| [env!("CARGO_BIN_EXE_second"), name].map(str::to_string).to_vec());
    let case = Case::new(3, "tiny2").unwrap();
    let walk = |library| Walk { library, programs: &programs, folder: folder.clone() };
    assert!(walk(library::<0>()).only(&case));
    assert!(!folder.exists());
    assert_eq!(FAULTS[5], Fault::SidesExchanged);
    assert!(!walk(why_library::<5>()).only(&case));
    let text = fs::read_to_string(folder.join("compare-3-tiny2.txt")).unwrap();
    assert!(text.contains("taperhive_why, record ") && text.contains(": told's word 8 is "));
    assert!(text.contains("again: tools/compare --only 3 tiny2\n"), "{text}");
    assert_eq!(fs::read(folder.join("compare-3-tiny2.queries")).unwrap(), case.file);
    fs::remove_dir_all(folder).unwrap();
}
