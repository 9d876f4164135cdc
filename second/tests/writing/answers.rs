//! The comparison of answer files: right functions pass, every wrong one is reported.

use crate::stub::logs::{logs_library, Fault, FAULTS};
use crate::stub::{assert_reported, library};
use second::beside::{compare, logs, tally::Tally, Case, Library};
use second::gen::flavours;

/// The flavours whose files are quick, and many whose ids differ or that have refused records.
fn cases() -> Vec<Case> {
    let mut quick = flavours();
    quick.retain(|name| {
        !["many", "most", "queue", "deep"].iter().any(|slow| name.starts_with(slow))
    });
    let all = (1..4).flat_map(|seed| quick.iter().map(move |name| few_words(seed, name)));
    all.collect()
}

/// A case with few queue lengths, one of which is refused.
fn few_words(seed: u64, flavour: &str) -> Case {
    let mut case = Case::new(seed, flavour).unwrap();
    case.words = vec![1, 64, 65];
    case
}

/// Every call on answer files; others are left out, as they would be the same for every fault.
fn differences(library: &Library, case: &Case, tally: &mut Tally) -> Vec<String> {
    let mut found = logs::compare(library, case, tally);
    found.extend(logs::whole::compare(library, case, tally));
    found
}

/// So many differing cases are no luck.
const ENOUGH: usize = 3;

/// How many of the cases differ; no more than enough are looked for.
fn reported(library: Library, cases: &[Case]) -> usize {
    let differs = |case: &&Case| !differences(&library, case, &mut Tally::default()).is_empty();
    cases.iter().filter(differs).take(ENOUGH).count()
}

#[test]
fn right_functions_pass_and_wrong_ones_are_reported() {
    let cases = cases();
    let found = each!(logs_library, &cases,
        0 1 2 3 4 5 6 7 8 9 10 11 12 13 14 15 16 17 18 19 20 21 22 23 24 25 26 27 28 29 30 31 32 33 34 35 36
        37 38 39 40 41 42 43 44 45 46 47 48 49 50 51 52 53 54 55 56 57 58 59 60 61 62 63 64 65 66 67 68 69
        70 71 72 73 74 75 76 77 78 79 80 81 82 83 84 85 86 87);
    assert_reported(FAULTS, &found, &[Fault::None], ENOUGH);
}

#[test]
fn whole_comparison_has_answer_files() {
    let cases: Vec<Case> = (1..6).map(|seed| few_words(seed, "refusals2")).collect();
    let differences = |library: Library| -> Vec<String> {
        cases.iter().flat_map(|case| compare(&library, case, &mut Tally::default())).collect()
    };
    assert_eq!(differences(library::<0>()), Vec::<String>::new());
    assert_eq!(FAULTS[1], Fault::FieldsExchanged);
    let found = differences(logs_library::<1>());
    for call in ["taperhive_log, ", "taperhive_log_write, ", "taperhive_log_read, "] {
        assert!(found.iter().any(|line| line.starts_with(call)), "{found:?}");
    }
}

#[test]
fn tally_counts_answers_and_refusals() {
    let mut tally = Tally::default();
    assert!(!tally.to_string().contains("; answers: "));
    for case in cases() {
        assert_eq!(differences(&library::<0>(), &case, &mut tally), Vec::<String>::new());
    }
    let text = tally.to_string();
    for number in (8..=14).chain([16, 17]) {
        assert!(text.contains(&format!(" {number}: ")), "{text}");
    }
    let (_, answers) = text.split_once("; answers: ").unwrap();
    for call in ["written", "read", "trailers", "counted", "matched", "files answered"] {
        let (before, _) = answers.split_once(&format!(" {call},")).unwrap();
        let count: usize = before.rsplit(' ').next().unwrap().parse().unwrap();
        assert!(count > 6 * cases().len() - 1, "{call}: {text}");
    }
}
