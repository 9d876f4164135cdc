//! Query files written from text: what is taken as it stands, and what is said of a line that is not.

use second::edition::Edition::Three;
use second::file::{fetch, open, record_at, trailer};
use second::script::write;
use std::io::Write;
use std::process::{Command, Output, Stdio};

/// A line of this head and eight points in the origin.
fn line(head: &str) -> String {
    head.to_string() + &" 0".repeat(24) + "\n"
}

/// The file of a text that is taken.
fn file(text: &str) -> Vec<u8> {
    write(text.as_bytes()).expect("a file")
}

/// What is said of a text that is not.
fn said(text: &str) -> String {
    write(text.as_bytes()).expect_err("no file").to_string()
}

#[test]
fn no_record_is_a_file_too() {
    assert_eq!(file("").len(), 16);
    assert_eq!(file("# a remark\n\n \t \r\n# another").len(), 16);
}

#[test]
fn edition_is_said_before_the_records() {
    let (one, two) = (line("1 0 7 5 16 1000"), line("1 0 7 5 6 7 16 1000"));
    let of_two = file(&format!("# a remark\n edition  2 # so\n{two}"));
    assert_eq!(of_two.len(), 128 + 16);
    let record = fetch(&of_two, 0).expect("a record");
    assert_eq!((record.separations, record.tolerance, record.cap), ([5, 6, 7], 16, 0));
    for text in [one.clone(), format!("edition 1\n{one}")] {
        assert_eq!(file(&text).len(), 116 + 16);
        assert_eq!(fetch(&file(&text), 0).expect("a record").separations, [5; 3]);
    }
    assert_eq!(file("edition 2")[4], 2);
}

#[test]
fn edition_3_is_said_as_edition_2_is() {
    let [two, three] = [2, 3].map(|n| file(&format!("edition {n}\n{}", line("1 0 7 5 6 7 64 9"))));
    assert_eq!(two[..128], three[..128]);
    assert_eq!(three[128..], trailer(Three, 128, 1));
}

#[test]
fn edition_is_said_once_and_by_its_number() {
    let one = line("1 0 7 5 16 1000");
    let late = "line 2: the edition must stand before all records";
    assert_eq!(said(&format!("{one}edition 2\n")), late);
    assert_eq!(said(&format!("{one}edition\n")), late);
    let again = "line 3: the edition is said a second time";
    assert_eq!(said(&format!("edition 2\n\nedition 3\n{one}")), again);
    assert_eq!(said("edition 4\n"), "line 1: edition 4 is none of 1, 2 and 3");
    assert_eq!(said("\nedition two\n"), "line 2: edition two is none of 1, 2 and 3");
    assert_eq!(said("edition 258\n"), "line 1: edition 258 is none of 1, 2 and 3");
    assert_eq!(said("edition\n"), "line 1: an edition is one number, not 0");
    assert_eq!(said("edition 2 3\n"), "line 1: an edition is one number, not 2");
}

#[test]
fn cap_is_that_of_the_records_behind_it() {
    let record = line("1 0 7 5 6 7 64 1000");
    for edition in [2, 3] {
        let text = format!(
            "edition {edition}\n{record}cap 5\n{record}{record} cap  1048577 # so\n{record}cap 0\n{record}"
        );
        let file = file(&text);
        let caps = (0..5).map(|n| record_at(&file, n).expect("a record").0.cap);
        // One that is refused is written as it is said.
        assert_eq!(caps.collect::<Vec<u32>>(), [0, 5, 5, 1_048_577, 0]);
    }
    assert_eq!(file("edition 2\ncap 5\n").len(), 16);
}

#[test]
fn cap_is_said_by_its_number_and_not_in_edition_1() {
    let none = "line 2: a record of edition 1 has no cap";
    assert_eq!(said("edition 1\ncap 5\n"), none);
    assert_eq!(said(&format!("{}cap 0\n", line("1 0 7 5 16 1000"))), none);
    assert_eq!(said("\ncap 5\nedition 2\n"), none);
    let of_two = |said_of: &str| said(&format!("edition 2\n{said_of}\n"));
    assert_eq!(of_two("cap"), "line 2: a cap is one number, not 0");
    assert_eq!(of_two("cap 5 6"), "line 2: a cap is one number, not 2");
    assert_eq!(of_two("cap half"), "line 2: 'half' is no whole number");
    assert_eq!(of_two("cap 0.5"), "line 2: '0.5' is no whole number");
    assert_eq!(of_two("cap -1"), "line 2: cap -1 is not from 0 to 4294967295");
    let far = "line 2: cap 4294967296 is not from 0 to 4294967295";
    assert_eq!(of_two("cap 4294967296"), far);
}

#[test]
fn numbers_too_few_or_too_many_are_told() {
    let (one, two) = (line("1 0 7 5 16 1000"), line("1 0 7 5 6 7 16 1000"));
    let short = "line 3: 3 numbers, and a record of edition 1 has 30";
    assert_eq!(said("# a remark\n\n1 2 3\n"), short);
    assert_eq!(said(&two), "line 1: 32 numbers, and a record of edition 1 has 30");
    let of_two = "line 2: 30 numbers, and a record of edition 2 has 32";
    assert_eq!(said(&format!("edition 2\n{one}")), of_two);
    let cut = one.trim_end().strip_suffix(" 0").expect("a last coordinate");
    assert_eq!(
        said(&format!("{one}{cut}")),
        "line 2: 29 numbers, and a record of edition 1 has 30"
    );
}

#[test]
fn what_is_no_whole_number_is_told() {
    for word in ["12.5", "1e3", "0x10", "1,000", "--1", "-", "kind", "½"] {
        let text = format!("{}{word} 0 7 5 16 1000\n", line("1 0 7 5 16 1000"));
        assert_eq!(said(&text), format!("line 2: '{word}' is no whole number"));
    }
}

#[test]
fn numbers_that_a_record_has_no_room_for_are_told() {
    let byte = "is not from 0 to 255";
    let number = "is not from 0 to 4294967295";
    for (head, why) in [
        ("300 0 7 5 16 1000", format!("kind 300 {byte}")),
        ("-1 0 7 5 16 1000", format!("kind -1 {byte}")),
        ("1 256 7 5 16 1000", format!("flags 256 {byte}")),
        ("1 0 4294967296 5 16 1000", format!("id 4294967296 {number}")),
        ("1 0 7 -5 16 1000", format!("separation -5 {number}")),
        ("1 0 7 5 -16 1000", format!("tolerance -16 {number}")),
        ("1 0 7 5 16 99999999999999999999", format!("budget 99999999999999999999 {number}")),
    ] {
        assert_eq!(said(&line(head)), format!("line 1: {why}"));
    }
    for (far, taken) in [(i64::from(i32::MAX), true), (1 << 31, false), (-(1 << 31) - 1, false)] {
        let text = line("1 0 7 5 16 1000").replace(" 0\n", &format!(" {far}\n"));
        let why = format!("line 1: coordinate {far} is not from -2147483648 to 2147483647");
        assert_eq!(
            write(text.as_bytes()).map_err(|wrong| wrong.to_string()).err(),
            (!taken).then_some(why)
        );
    }
}

#[test]
fn text_that_is_none_is_told() {
    let bytes = [line("1 0 7 5 16 1000").as_bytes(), b"# caf\xE9\n"].concat();
    assert_eq!(write(&bytes).expect_err("no file").to_string(), "line 2: not text in UTF-8");
}

/// The program called on a text.
fn called(text: &[u8]) -> Output {
    let mut child = Command::new(env!("CARGO_BIN_EXE_second"))
        .arg("write")
        .stdin(Stdio::piped())
        .stdout(Stdio::piped())
        .stderr(Stdio::piped())
        .spawn()
        .expect("it can be called");
    child.stdin.take().expect("its input").write_all(text).expect("it reads all");
    child.wait_with_output().expect("it ends")
}

#[test]
fn every_record_of_a_long_text_is_written() {
    // Far more text than `sweep` would take of a file, and as many records as a file may hold.
    let text: String = (1..=4096).map(|id| line(&format!("1 0 {id} 5 16 1000"))).collect();
    assert!(text.len() > 4 * 65_536);
    let output = called(text.as_bytes());
    assert!(output.status.success() && output.stderr.is_empty());
    assert_eq!(open(&output.stdout).expect("a file").count, 4096);
    let ids = (0..4096).map(|n| fetch(&output.stdout, n).expect("a record").id);
    assert!(ids.eq(1..=4096));
}

#[test]
fn wrong_line_is_said_on_standard_error_and_nothing_is_written() {
    let text = format!("{}1 0 8 5 16 1000 0.5\n", line("1 0 7 5 16 1000").repeat(2000));
    let output = called(text.as_bytes());
    assert!(!output.status.success() && output.stdout.is_empty());
    assert_eq!(String::from_utf8_lossy(&output.stderr), "line 2001: '0.5' is no whole number\n");
}
