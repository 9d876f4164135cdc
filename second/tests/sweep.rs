//! What `sweep` prints.

mod common;

use common::*;
use second::edition::Edition::One;
use second::file::file_of;
use second::record::Record;
use second::text::{sweep, sweep_any_length};

/// A file of these records, refused ones among them.
fn file(leading: usize, records: &[Record]) -> Vec<u8> {
    let mut bytes = vec![0; leading];
    bytes.extend(file_of(One, records));
    bytes
}

/// The three records of the rules' example.
fn example() -> [Record; 3] {
    let beside = falls([150, 150, 0], [150, 150, 0], T);
    let poor = Record { id: 3, budget: 4, ..first_case() };
    [first_case(), Record { id: 2, ..beside }, poor]
}

const EXAMPLE: &str = "\
1 MET 262144 0 0 500 5
2 CLEAR 0 0 0 0 10
3 SPENT 0 0 0 1000 4
TOTAL 3 MET 1 CLEAR 1 SPENT 1 ROOM 0 FLOOR 0 REFUSED 0
";

#[test]
fn example_of_the_rules() {
    assert_eq!(sweep(&file(0, &example()), 4096), EXAMPLE);
    assert_eq!(sweep(&file(33, &example()), 4096), EXAMPLE);
}

#[test]
fn refused_records_have_a_line_and_are_counted() {
    let mut records = example().to_vec();
    records.push(Record { id: u32::MAX, kind: 0, ..first_case() });
    records.push(Record { id: 0, byte3: 1, ..first_case() });
    let expected = "\
1 ROOM 0 0 0 1000 3
2 CLEAR 0 0 0 0 10
3 ROOM 0 0 0 1000 3
4294967295 REFUSED 1
0 REFUSED 2
TOTAL 5 MET 0 CLEAR 1 SPENT 0 ROOM 2 FLOOR 0 REFUSED 2
";
    assert_eq!(sweep(&file(0, &records), 7), expected);
}

#[test]
fn queue_out_of_range_refuses_each_record() {
    let records = [first_case(), Record { id: 2, tolerance: 0, ..first_case() }];
    let expected = "\
1 REFUSED 7
2 REFUSED 5
TOTAL 2 MET 0 CLEAR 0 SPENT 0 ROOM 0 FLOOR 0 REFUSED 2
";
    assert_eq!(sweep(&file(0, &records), 1), expected);
}

#[test]
fn refused_files_print_one_line() {
    let whole = file(0, &example());
    let at = whole.len() - 16;
    let damaged = |place: usize| {
        let mut bytes = whole.clone();
        bytes[at + place] ^= 0x40;
        sweep(&bytes, 4096)
    };
    assert_eq!(sweep(&[], 4096), "FILE 8\n");
    assert_eq!(sweep(&whole[at + 1..], 4096), "FILE 8\n");
    assert_eq!(damaged(0), "FILE 9\n");
    assert_eq!(damaged(4), "FILE 10\n");
    assert_eq!(damaged(15), "FILE 11\n");
    assert_eq!(damaged(8), "FILE 12\n");
    assert_eq!(sweep(&whole[1..], 4096), "FILE 12\n");
}

#[test]
fn no_records_print_the_total_only() {
    let expected = "TOTAL 0 MET 0 CLEAR 0 SPENT 0 ROOM 0 FLOOR 0 REFUSED 0\n";
    assert_eq!(sweep(&file(0, &[]), 4096), expected);
}

#[test]
fn too_long_comes_before_anything_else() {
    let leading = 65_536 - 16 - 3 * 116;
    assert_eq!(sweep(&file(leading, &example()), 4096), EXAMPLE);
    let long = file(leading + 1, &example());
    assert_eq!(sweep(&long, 4096), "FILE 15\n");
    assert_eq!(sweep_any_length(&long, 4096), EXAMPLE);
    assert_eq!(sweep(&vec![0; 65_537], 4096), "FILE 15\n");
    assert_eq!(sweep(&vec![0; 65_536], 4096), "FILE 9\n");
}
