//! The program as it is called.

mod common;

use common::*;
use second::edition::Edition::{One, Three};
use second::file::file_of;
use second::record::Record;
use std::io::Write;
use std::process::{Command, Stdio};

/// What the program prints for these arguments and this input, if it ends well.
fn call(arguments: &[&str], input: &[u8]) -> Option<String> {
    let mut child = Command::new(env!("CARGO_BIN_EXE_second"))
        .args(arguments)
        .stdin(Stdio::piped())
        .stdout(Stdio::piped())
        .stderr(Stdio::null())
        .spawn()
        .unwrap();
    // Commands that read nothing may be gone before the input is written.
    let _ = child.stdin.take().unwrap().write_all(input);
    let output = child.wait_with_output().unwrap();
    output.status.success().then(|| String::from_utf8_lossy(&output.stdout).into_owned())
}

fn example() -> Vec<u8> {
    let beside = Record { id: 2, ..falls([150, 150, 0], [150, 150, 0], T) };
    let poor = Record { id: 3, budget: 4, ..first_case() };
    file_of(One, &[first_case(), beside, poor])
}

#[test]
fn sweep_prints_the_example_of_the_rules() {
    let expected = "\
1 MET 262144 0 0 500 5
2 CLEAR 0 0 0 0 10
3 SPENT 0 0 0 1000 4
TOTAL 3 MET 1 CLEAR 1 SPENT 1 ROOM 0 FLOOR 0 REFUSED 0
";
    assert_eq!(call(&["sweep"], &example()).unwrap(), expected);
    let refused = call(&["sweep", "1"], &example()).unwrap();
    assert!(refused.starts_with("1 REFUSED 7\n2 REFUSED 7\n3 REFUSED 7\nTOTAL 3 "));
}

#[test]
fn sweep_refuses_files() {
    assert_eq!(call(&["sweep"], &[]).unwrap(), "FILE 8\n");
    assert_eq!(call(&["sweep"], &[0; 65_536]).unwrap(), "FILE 9\n");
    assert_eq!(call(&["sweep"], &[0; 65_537]).unwrap(), "FILE 15\n");
    assert_eq!(call(&["sweep"], &vec![0; 400_000]).unwrap(), "FILE 15\n");
}

/// The line of a box on z, of t from one part to another.
fn on_z(t: &str, share: &str, level: &str) -> String {
    format!(
        "RULED OUT on z, first body on the + side: t {t}, u 0 to 1048576, v 0 to 1048576 \
         ({share}, 0.00 % to 100.00 %, 0.00 % to 100.00 %); {level}\n"
    )
}

#[test]
fn why_prints_one_line() {
    let close = file_of(One, &[first_case(), Record { tolerance: 16, ..first_case() }]);
    let line = on_z("262144 to 393216", "25.00 % to 37.50 %", "level 3, depths 3 0 0, box 2 0 0");
    assert_eq!(call(&["why", "1", "262144", "0", "0"], &close).unwrap(), line);
    let line = on_z("0 to 262144", "0.00 % to 25.00 %", "level 2, depths 2 0 0, box 0 0 0");
    assert_eq!(call(&["why", "0", "7", "8", "9"], &close).unwrap(), line);
    let outside = call(&["why", "0", "0", "524288", "524289"], &close).unwrap();
    assert_eq!(
        outside,
        "REFUSED 23 not in the domain (t, u and v are at most 1048576, and for a face so is u + v), \
         or t is beyond the cap\n"
    );
    let late = call(&["why", "0", "262144", "0", "0"], &close).unwrap();
    assert_eq!(
        late,
        "REFUSED 24 not ruled out: the search answers this moment or an earlier one\n"
    );
}

#[test]
fn why_rounds_down_and_names_sides_and_axes() {
    let beside = file_of(One, &[falls([150, 150, 0], [150, 150, 0], T)]);
    let deep = call(&["why", "0", "0", "524288", "524288"], &beside).unwrap();
    let line = "RULED OUT on x, first body on the + side: t 0 to 1048576, u 524288 to 589824, v 524288 to 655360 \
                (0.00 % to 100.00 %, 50.00 % to 56.25 %, 50.00 % to 62.50 %); level 7, depths 0 4 3, box 0 8 4\n";
    assert_eq!(deep, line);
    let low = file_of(One, &[falls([0, -101, 0], [0, -101, 0], T)]);
    let whole = call(&["why", "0", "1048576", "1048576", "0"], &low).unwrap();
    assert!(whole.starts_with("RULED OUT on y, first body on the - side: t 0 to 1048576, "));
    let close = file_of(One, &[Record { tolerance: 16, ..first_case() }]);
    let fine = call(&["why", "0", "516095", "229376", "229376"], &close).unwrap();
    // 62 of 128 is 48.4375 percent, 3 of 16 is 18.75.
    assert!(fine.contains("(48.43 % to 49.21 %, 18.75 % to 25.00 %, 18.75 % to 25.00 %)"));
}

#[test]
fn edition_3_is_swept_and_asked() {
    let still = [[0, -100, 0], [0, 100, 0]];
    let case = ee(
        [[-100, 0, 100], [100, 0, 100], still[0], still[1]],
        [[-100, 0, -100], [100, 0, -100], still[0], still[1]],
    );
    let file = file_of(Three, &[Record { tolerance: 64, ..case }, Record { id: 2, ..case }]);
    let swept = "\
1 MET 262144 262144 262144 50 49
2 REFUSED 5
TOTAL 2 MET 1 CLEAR 0 SPENT 0 ROOM 0 FLOOR 0 REFUSED 1
";
    assert_eq!(call(&["sweep"], &file).unwrap(), swept);
    let line = "RULED OUT on z, first body on the + side: t 0 to 262144, u 524288 to 1048576, v 0 to 524288 \
                (0.00 % to 25.00 %, 50.00 % to 100.00 %, 0.00 % to 50.00 %); level 4, depths 2 1 1, box 0 1 0\n";
    assert_eq!(call(&["why", "0", "200001", "1048576", "0"], &file).unwrap(), line);
    assert_eq!(call(&["why", "1", "1", "0", "0"], &file).unwrap(), "REFUSED 5\n");
}

#[test]
fn why_refuses_files_and_records() {
    let why = |n: &str, input: &[u8]| call(&["why", n, "0", "0", "4294967295"], input).unwrap();
    assert_eq!(why("0", &[]), "FILE 8\n");
    assert_eq!(why("0", &[0; 65_536]), "FILE 9\n");
    assert_eq!(why("0", &[0; 65_537]), "FILE 15\n");
    assert_eq!(why("3", &example()), "FILE 13\n");
    assert_eq!(why("4294967296", &example()), "FILE 13\n");
    let bad = file_of(One, &[Record { kind: 3, ..first_case() }]);
    assert_eq!(why("0", &bad), "REFUSED 1\n");
    assert!(why("2", &example()).starts_with("REFUSED 23 "));
}

#[test]
fn why_reads_a_file_by_its_name() {
    let name = std::env::temp_dir().join(format!("taperhive-why-{}.query", std::process::id()));
    std::fs::write(&name, example()).unwrap();
    let arguments = ["why", "1", "0", "0", "0"];
    let named = [&arguments[..], &[name.to_str().unwrap()]].concat();
    assert_eq!(call(&named, &[]), call(&arguments, &example()));
    std::fs::remove_file(&name).unwrap();
    assert_eq!(call(&named, &example()), None);
}

#[test]
fn generators_print() {
    let names = call(&["flavours"], &[]).unwrap();
    assert_eq!(names.lines().collect::<Vec<_>>(), second::gen::flavours());
    assert_eq!(call(&["queries", "4", "3"], &[]).unwrap().lines().count(), 3);
    assert_eq!(call(&["queries", "4", "5", "3"], &[]).unwrap().lines().count(), 5);
    assert!(call(&["words", "4", "empty"], &[]).unwrap().starts_with("0 1 2 3 "));
    for (flavour, trailer) in [("tiny", "QEND\x01"), ("tiny3", "QEND\x03")] {
        assert!(call(&["gen", "4", flavour], &[]).unwrap().contains(trailer));
    }
}

#[test]
fn unknown_commands_fail() {
    for arguments in [
        &[][..],
        &["swept"],
        &["sweep", "x"],
        &["gen", "1", "none"],
        &["words", "1"],
        &["queries", "1", "1", "1"],
    ] {
        assert_eq!(call(arguments, &[]), None);
    }
    for numbers in [["0", "0", "0", "-1"], ["0", "x", "0", "0"], ["", "0", "0", "0"]] {
        assert_eq!(call(&[&["why"][..], &numbers].concat(), &example()), None);
    }
}
