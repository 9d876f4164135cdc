//! Edition 3 of the query file: its bytes, round trips, and refusals 3, 5, 10, 12 and 14.

use crate::common::*;
use crate::{file, odd, trailed, NONE};
use second::edition::Edition::{self, Three, Two};
use second::edition::Range;
use second::file::{fetch, file_of, open, record_at, Opened, RefusedFetch};
use second::record::Record;
use second::refusals::{check_record, Refusal};
use second::text::sweep;

/// A record that only edition 3 takes.
fn long() -> Record {
    let mut long = odd();
    (long.start[2], long.end[3]) = ([-M3, 5, M3], [M + 1, -M - 1, M3 - 1]);
    long
}

/// The refusal's number by a range, 0 for none.
fn number(record: &Record, range: Range) -> u32 {
    check_record(record, range).map_or_else(Refusal::number, |()| 0)
}

/// The first case with a coordinate at one of its 24 places.
fn with_coordinate(place: usize, coordinate: i32) -> Record {
    let mut record = first_case();
    let points = if place < 12 { &mut record.start } else { &mut record.end };
    points[place % 12 / 3][place % 3] = coordinate;
    record
}

#[test]
fn bytes_are_those_of_edition_2_but_for_the_trailer() {
    let [two, three] = [Two, Three].map(|edition| file(edition, 3, &[odd(), first_case()]));
    assert_eq!(two[..3 + 256], three[..3 + 256]);
    assert_eq!(three[259..], *b"QEND\x03\0\0\0\0\x01\0\0\x02\0\0\0");
    let bytes = long().bytes(Three);
    assert_eq!(bytes[32 + 24..32 + 36], [0, 0, 0xE0, 0xFF, 5, 0, 0, 0, 0, 0, 0x20, 0]);
}

#[test]
fn round_trip() {
    let records = [long(), odd(), first_case()];
    for leading in [0, 1, 128, 300] {
        let bytes = file(Three, leading, &records);
        assert_eq!(open(&bytes), Ok(Opened { edition: Three, first: leading, count: 3 }));
        for (n, record) in records.iter().enumerate() {
            assert_eq!(fetch(&bytes, n as u32), Ok(*record));
            assert_eq!(record_at(&bytes, n as u32), Ok((*record, Range::LONGER)));
        }
        let absent = RefusedFetch { refusal: Refusal::Index, id: None };
        assert_eq!(fetch(&bytes, 3), Err(absent));
    }
    assert_eq!(open(&file(Three, 5, &[])), Ok(Opened { edition: Three, first: 5, count: 0 }));
}

#[test]
fn no_records_are_a_file() {
    let empty = *b"QEND\x03\0\0\0\0\0\0\0\0\0\0\0";
    let total = "TOTAL 0 MET 0 CLEAR 0 SPENT 0 ROOM 0 FLOOR 0 REFUSED 0\n";
    assert_eq!(sweep(&empty, 4096), total);
    let other = *b"QEND\x04\0\0\0\0\0\0\0\0\0\0\0";
    assert_eq!(sweep(&other, 4096), "FILE 10\n");
}

#[test]
fn coordinates_are_refused_3_by_edition() {
    for place in 0..24 {
        for (coordinate, must) in [(M, [0, 0]), (M + 1, [3, 0]), (M3, [3, 0]), (M3 + 1, [3, 3])] {
            for coordinate in [coordinate, -coordinate] {
                let record = with_coordinate(place, coordinate);
                assert_eq!([Range::SHORTER, Range::LONGER].map(|r| number(&record, r)), must);
                assert_eq!([1, 2].map(|edition| written(edition, &record, 128)), [must[0]; 2]);
                assert_eq!(written(3, &record, 128), must[1]);
            }
        }
        for far in [i32::MIN, i32::MAX] {
            assert_eq!(number(&with_coordinate(place, far), Range::LONGER), 3);
        }
    }
}

#[test]
fn tolerances_are_refused_5_by_edition() {
    let cases = [(15, [5, 5]), (16, [0, 5]), (63, [0, 5]), (64, [0, 0]), (1 << 20, [0, 0])];
    for (tolerance, must) in cases.into_iter().chain([((1 << 20) + 1, [5, 5])]) {
        let record = Record { tolerance, ..first_case() };
        assert_eq!([Range::SHORTER, Range::LONGER].map(|range| number(&record, range)), must);
        assert_eq!([1, 2].map(|edition| written(edition, &record, 128)), [must[0]; 2]);
        assert_eq!(written(3, &record, 128), must[1]);
        // 3 comes before it, and everything else behind.
        let far = Record { tolerance, budget: 0, ..with_coordinate(7, M3 + 1) };
        assert_eq!(written(3, &far, 128), 3);
        let poor = Record { tolerance, budget: 0, ..first_case() };
        assert_eq!(written(3, &poor, 0), if must[1] == 5 { 5 } else { 6 });
    }
}

#[test]
fn other_ranges_are_those_of_edition_2() {
    let number = |record: Record| number(&record, Range::LONGER);
    for (separation, must) in [(0, 0), (65_536, 0), (65_537, 4)] {
        assert_eq!(number(Record { separations: [0, separation, 0], ..long() }), must);
    }
    for (budget, must) in [(0, 6), (1, 0), (1_000_000, 0), (1_000_001, 6)] {
        assert_eq!(number(Record { budget, ..long() }), must);
    }
    for (cap, must) in [(1, 0), (1_048_576, 0), (1_048_577, 22), (u32::MAX, 22)] {
        assert_eq!(number(Record { cap, ..long() }), must);
    }
    assert_eq!(number(Record { byte2: 1, ..long() }), 2);
    assert_eq!(number(Record { kind: 3, ..long() }), 1);
}

#[test]
fn a_file_is_read_by_its_own_range() {
    // The same bytes of records behind the two trailers.
    let close = Record { tolerance: 63, ..first_case() };
    let [two, three] = [Two, Three].map(|edition| file_of(edition, &[long(), close]));
    assert_eq!(two[..256], three[..256]);
    let refused = |file: &[u8], n| fetch(file, n).map_or_else(|r| r.refusal.number(), |_| 0);
    assert_eq!([0, 1].map(|n| refused(&two, n)), [3, 0]);
    assert_eq!([0, 1].map(|n| refused(&three, n)), [0, 5]);
    assert_eq!(sweep(&two, 4096).lines().next(), Some("16909060 REFUSED 3"));
    assert_eq!(sweep(&three, 4096).lines().nth(1), Some("1 REFUSED 5"));
}

#[test]
fn record_writes_give_the_lowest_then_10_then_14() {
    assert_eq!([127, 128, 129].map(|space| written(3, &long(), space)), [14, 0, 0]);
    assert_eq!(written(3, &Record { separations: [1, 1, 2], ..first_case() }, 128), 0);
    for edition in NONE {
        // A number that is no edition has the shorter range, so that 3 and 5 come before 10.
        assert_eq!(written(edition, &long(), 500), 3);
        assert_eq!(written(edition, &Record { tolerance: 63, ..first_case() }, 500), 10);
        assert_eq!(written(edition, &Record { separations: [1, 1, 2], ..first_case() }, 0), 10);
        assert_eq!(written(edition, &Record { budget: 0, ..first_case() }, 0), 6);
    }
}

#[test]
fn trailer_writes_give_10_11_12_14() {
    assert_eq!(trailed(3, 0, 4097, 0), 11);
    assert_eq!(trailed(3, 255, 2, 300), 12);
    assert_eq!(trailed(3, 256, 2, 271), 14);
    assert_eq!(trailed(3, 256, 2, 272), 0);
    assert_eq!(NONE.map(|edition| trailed(edition, 256, 2, 272)), [10; 5]);
}

#[test]
fn records_go_from_edition_to_edition_where_the_ranges_let_them() {
    let close = Record { tolerance: 63, ..first_case() };
    let cases = [(first_case(), [0, 0, 0]), (long(), [3, 3, 0]), (close, [0, 0, 5])];
    for (record, numbers) in cases {
        for (edition, number) in Edition::ALL.into_iter().zip(numbers) {
            assert_eq!(written(edition.number(), &record, 128), number);
            if number == 0 {
                assert_eq!(fetch(&file(edition, 0, &[record]), 0), Ok(record));
            }
        }
    }
}
