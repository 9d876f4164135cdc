//! Refusals 1 to 7 and 22: the ranges' ends, and the order.

mod common;

use common::*;
use second::edition::Range;
use second::record::Record;
use second::refusals::{check_record, Refusal};
use second::search::Answer;

/// Those of a record, and 7, in the order in which they are looked at.
const IN_ORDER: [u32; 8] = [1, 2, 3, 4, 5, 6, 22, 7];

/// A record and the refusal that it alone deserves.
fn spoiled(number: u32) -> Record {
    let mut record = first_case();
    spoil(&mut record, number);
    record
}

fn spoil(record: &mut Record, number: u32) {
    match number {
        1 => record.kind = 3,
        2 => record.flags = 2,
        3 => record.start[2][0] = i32::MIN,
        4 => record.separations = [65_537; 3],
        5 => record.tolerance = 15,
        6 => record.budget = 0,
        22 => record.cap = 1_048_577,
        _ => panic!("not a record's refusal"),
    }
}

fn number(answer: Answer) -> u32 {
    match answer {
        Answer::Refused(refusal) => refusal.number(),
        _ => 0,
    }
}

#[test]
fn each_alone() {
    for n in IN_ORDER.into_iter().take(7) {
        assert_eq!(number(ask(spoiled(n))), n);
        assert_eq!(check_record(&spoiled(n), Range::SHORTER).map_err(Refusal::number), Err(n));
    }
    assert_eq!(number(ask_with(first_case(), 1)), 7);
}

#[test]
fn first_of_every_combination() {
    for chosen in 1_u32..256 {
        let mut record = first_case();
        for n in (0..7).filter(|n| chosen >> n & 1 == 1) {
            spoil(&mut record, IN_ORDER[n]);
        }
        let words = if chosen >> 7 == 1 { 1_048_577 } else { 4096 };
        assert_eq!(number(ask_with(record, words)), IN_ORDER[chosen.trailing_zeros() as usize]);
    }
}

#[test]
fn kinds_and_flags() {
    for kind in 0..=255 {
        let expected = if kind == 1 || kind == 2 { 0 } else { 1 };
        assert_eq!(number(ask(Record { kind, ..first_case() })), expected);
    }
    for flags in 0..=255 {
        let expected = if flags <= 1 { 0 } else { 2 };
        assert_eq!(number(ask(Record { flags, ..first_case() })), expected);
    }
    for byte in 1..=255 {
        assert_eq!(number(ask(Record { byte2: byte, ..first_case() })), 2);
        assert_eq!(number(ask(Record { byte3: byte, ..first_case() })), 2);
    }
}

#[test]
fn every_coordinate_is_checked() {
    let cases = [(M, 0), (-M, 0), (M + 1, 3), (-M - 1, 3), (i32::MIN, 3), (i32::MAX, 3)];
    for place in 0..24 {
        for (coordinate, expected) in cases {
            for flags in [0, 1] {
                let mut record = Record { flags, ..first_case() };
                let points = if place < 12 { &mut record.start } else { &mut record.end };
                points[place % 12 / 3][place % 3] = coordinate;
                assert_eq!(number(ask(record)), expected);
            }
        }
    }
}

#[test]
fn ends_of_the_other_ranges() {
    for (separation, expected) in [(0, 0), (65_536, 0), (65_537, 4), (u32::MAX, 4)] {
        assert_eq!(number(ask(Record { separations: [separation; 3], ..first_case() })), expected);
    }
    for (tolerance, expected) in [(0, 5), (15, 5), (16, 0), (M as u32, 0), (M as u32 + 1, 5)] {
        assert_eq!(number(ask(Record { tolerance, ..first_case() })), expected);
    }
    for (budget, expected) in [(0, 6), (1, 0), (1_000_000, 0), (1_000_001, 6), (u32::MAX, 6)] {
        assert_eq!(number(ask(Record { budget, ..first_case() })), expected);
    }
    for (cap, expected) in [(0, 0), (1, 0), (M as u32, 0), (M as u32 + 1, 22), (u32::MAX, 22)] {
        assert_eq!(number(ask(Record { cap, ..first_case() })), expected);
    }
    let lengths = [(0, 7), (1, 7), (2, 0), (3, 0), (1_048_576, 0), (1_048_577, 7), (usize::MAX, 7)];
    for (words, expected) in lengths {
        assert_eq!(number(ask_with(first_case(), words)), expected);
    }
}
