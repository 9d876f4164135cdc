//! The comparison of the writers, and of what is given in numbers: right functions pass, every wrong one is reported.

#[macro_use]
#[path = "../stub/mod.rs"]
mod stub;

mod answers;
mod programs;

use second::beside::{compare, given, tally::Tally, writing, Case, Library};
use second::gen::{flavours, generate};
use stub::writing::{Fault, FAULTS};
use stub::{assert_reported, given_library, library, ranged_library, ranges, writing_library};

/// A file alone: the writers need no queue.
fn case(seed: u64, flavour: &'static str) -> Case {
    let file = generate(seed, flavour).unwrap();
    Case { seed, flavour, file, words: Vec::new() }
}

fn cases() -> Vec<Case> {
    let both = |flavour| [1, 2].map(|seed| case(seed, flavour));
    let all = flavours().into_iter().flat_map(both);
    // A cap of the whole step is seldom.
    all.chain((3..9).flat_map(|seed| ["cap2", "cap3"].map(|name| case(seed, name)))).collect()
}

/// What differs in the writing of a case with fault N.
fn differences<const N: usize>(case: &Case) -> Vec<String> {
    writing::compare(&writing_library::<N>(), case, &mut Tally::default())
}

/// So many differing cases are no luck.
const ENOUGH: usize = 4;

/// How many of the cases differ; no more than enough are looked for.
fn reported(library: Library, cases: &[Case]) -> usize {
    let differs =
        |case: &&Case| !writing::compare(&library, case, &mut Tally::default()).is_empty();
    cases.iter().filter(differs).take(ENOUGH).count()
}

#[test]
fn right_writers_pass_and_wrong_ones_are_reported() {
    let cases = cases();
    let found = each!(writing_library, &cases,
        0 1 2 3 4 5 6 7 8 9 10 11 12 13 14 15 16 17 18 19
        20 21 22 23 24 25 26 27 28 29 30 31 32 33 34 35 36 37 38 39 40 41 42 43 44 45 46 47 48 49);
    assert_reported(FAULTS, &found, &[Fault::None], ENOUGH);
}

#[test]
fn wrong_ranges_are_reported_but_for_depths_which_no_writer_has() {
    let refused = (3..12).flat_map(|seed| ["refusals2", "refusals3"].map(|name| case(seed, name)));
    let cases: Vec<Case> = refused.chain(cases()).collect();
    let found = each!(ranged_library, &cases, 0 1 2 3 4 5 6 7 8 9 10 11 12);
    use ranges::Fault::{DeeperInThree, None, ShallowerInTwo};
    assert_reported(ranges::FAULTS, &found, &[None, DeeperInThree, ShallowerInTwo], ENOUGH);
}

#[test]
fn faults_stand_in_the_list_where_the_tests_expect_them() {
    assert_eq!([FAULTS[1], FAULTS[4]], [Fault::ByteBeyond, Fault::SpaceOneByteLate]);
    assert_eq!([FAULTS[9], FAULTS[24]], [Fault::LayoutOfEditionOne, Fault::TrailerOfAnotherCount]);
}

#[test]
fn whole_comparison_writes_too() {
    let case = Case::new(1, "one2").unwrap();
    let differences = |library| compare(&library, &case, &mut Tally::default());
    assert_eq!(differences(library::<0>()), Vec::<String>::new());
    let found = differences(writing_library::<1>());
    assert!(!found.is_empty() && found.iter().all(|line| line.contains("the buffer's byte")));
    assert!(found.iter().any(|line| line.starts_with("taperhive_copy, record 0, edition 2, ")));
}

#[test]
fn space_that_is_missed_is_said_with_its_place() {
    let found = differences::<4>(&case(1, "one"));
    let line = "taperhive_copy, record 0, edition 1, Room { length: 115, at: 0 }: ";
    assert!(found.contains(&format!("{line}returned 0 and must return 14")), "{found:?}");
    assert!(found.iter().any(|text| text.starts_with(&format!("{line}the buffer's byte "))));
}

#[test]
fn files_written_must_read_as_the_records_copied() {
    let unread = |found: Vec<String>| {
        let unread = "it does not read as the records copied";
        found.into_iter().filter(|line| line.ends_with(unread)).collect::<Vec<_>>()
    };
    for flavour in ["tiny", "tiny2", "leading2", "tiny3"] {
        let case = case(1, flavour);
        assert_eq!(unread(differences::<0>(&case)).len(), 0);
        // Edition 1 alone has the right layout; all have the wrong trailer.
        let found = unread(differences::<9>(&case));
        assert_eq!(found.len(), 2, "{flavour}");
        for (line, edition) in found.iter().zip([2, 3]) {
            let begins = format!("a file of edition {edition} written from byte ");
            assert!(line.starts_with(&begins), "{found:?}");
        }
        assert_eq!(unread(differences::<24>(&case)).len(), 3, "{flavour}");
    }
}

#[test]
fn tally_counts_copies_trailers_and_refusals() {
    let mut tally = Tally::default();
    assert!(!tally.to_string().contains(" copies, "));
    for case in cases() {
        assert_eq!(writing::compare(&library::<0>(), &case, &mut tally), Vec::<String>::new());
    }
    let text = tally.to_string();
    for number in (1..=14).filter(|number| *number != 7).chain([22]) {
        assert!(text.contains(&format!(" {number}: ")), "{text}");
    }
    let files = 3 * cases().len();
    assert!(text.contains(&format!(" trailers, {files} files written; ")), "{text}");
    let copies = text.split(" copies, ").next().unwrap().rsplit(' ').next().unwrap();
    // The records of the largest files alone are as many.
    assert!(copies.parse::<usize>().unwrap() > 6 * 3 * 4096, "{text}");
}

/// The flavours whose files are quick, with queue lengths: pairs are asked too.
fn asked_cases() -> Vec<Case> {
    let quick: Vec<&str> = flavours()
        .into_iter()
        .filter(|name| !name.starts_with("many") && !name.starts_with("queue"))
        .collect();
    (1..4).flat_map(|seed| quick.iter().map(move |name| Case::new(seed, name).unwrap())).collect()
}

/// How many of the cases differ in what is given in numbers; no more than enough are looked for.
fn given_reported(library: Library, cases: &[Case]) -> usize {
    let differs = |case: &&Case| !given::compare(&library, case, &mut Tally::default()).is_empty();
    cases.iter().filter(differs).take(ENOUGH).count()
}

#[test]
fn what_is_given_in_numbers_passes_and_wrong_functions_are_reported() {
    use given_reported as reported;
    let cases = asked_cases();
    let found = each!(given_library, &cases,
        0 1 2 3 4 5 6 7 8 9 10 11 12 13 14 15 16 17 18 19 20 21);
    assert_reported(stub::given::FAULTS, &found, &[stub::given::Fault::None], ENOUGH);
}

#[test]
fn tally_counts_records_from_numbers() {
    let mut tally = Tally::default();
    assert!(!tally.to_string().contains(" records from numbers"));
    for case in asked_cases() {
        assert_eq!(given::compare(&library::<0>(), &case, &mut tally), Vec::<String>::new());
    }
    let text = tally.to_string();
    for number in [1, 2, 3, 4, 5, 6, 10, 14] {
        assert!(text.contains(&format!(" {number}: ")), "{text}");
    }
    assert!(text.contains(" pairs without a file; ") && !text.contains(", 0 pairs"), "{text}");
}
