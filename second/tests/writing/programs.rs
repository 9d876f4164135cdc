//! `keep` and `tell` as programs: right ones pass, wrong ones are reported.

use second::beside::logs::program::compare;
use second::beside::{tally::Tally, Case};
use second::gen::flavours;

/// A program of its own, made of the second program by a line of shell.
fn shell(line: &str) -> Vec<String> {
    let line = line.replace("SECOND", env!("CARGO_BIN_EXE_second"));
    ["sh", "-c", &line, "sh"].map(str::to_string).to_vec()
}

const KEEP: &str = "SECOND keep";
const TELL: &str = "SECOND tell";

#[test]
fn right_programs_pass() {
    let mut tally = Tally::default();
    for flavour in flavours() {
        let case = Case::new(2, flavour).unwrap();
        let found = compare(&shell(KEEP), &shell(TELL), &case, &mut tally);
        assert_eq!(found, Vec::<String>::new());
    }
    let text = tally.to_string();
    for number in ["8", "9", "12", "15", "16"] {
        assert!(text.contains(&format!(" {number}: ")), "{text}");
    }
    assert!(!text.contains(" 0 files answered") && !text.contains(" 0 told"), "{text}");
}

/// The differences that begin so, of every case; all must.
fn reported(keep: &str, tell: &str, begins: &str) {
    let names = ["mixed2", "damaged", "refusals3", "empty"];
    let cases = (1..4).flat_map(|seed| names.map(|name| Case::new(seed, name).unwrap()));
    let differences = |case| compare(&shell(keep), &shell(tell), &case, &mut Tally::default());
    let found: Vec<String> = cases.flat_map(differences).collect();
    assert!(!found.is_empty(), "{keep}, {tell}");
    assert!(found.iter().all(|line| line.starts_with(begins)), "{found:?}");
}

#[test]
fn wrong_programs_are_reported() {
    for keep in [
        "SECOND keep | tr A Q",
        "SECOND keep 2>&1",
        "SECOND keep 2>/dev/null",
        "SECOND keep; printf x",
        "SECOND keep | head -c 40",
        "SECOND sweep",
        "SECOND keep; exit 1",
    ] {
        reported(keep, TELL, "keep: ");
    }
    for tell in [
        "SECOND tell; echo",
        "SECOND tell | grep -v TOTAL",
        "SECOND tell | sed s/CLEAR/MET/",
        "SECOND tell >&2",
        "SECOND sweep",
        "SECOND tell; exit 1",
    ] {
        reported(KEEP, tell, "tell: ");
    }
}

#[test]
fn files_are_read_by_their_names() {
    let name = std::env::temp_dir().join(format!("taperhive-keep-{}", std::process::id()));
    let by_name = |program: &str| format!("cat >{0}; SECOND {program} {0}", name.display());
    let case = Case::new(1, "mixed2").unwrap();
    let [keep, tell] = ["keep", "tell"].map(|program| shell(&by_name(program)));
    assert_eq!(compare(&keep, &tell, &case, &mut Tally::default()), Vec::<String>::new());
    std::fs::remove_file(&name).unwrap();
    let absent = shell(&format!("SECOND keep {}", name.display()));
    assert_eq!(compare(&absent, &tell, &case, &mut Tally::default()).len(), 1);
}
