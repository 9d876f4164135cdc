//! Edition 2 of the query file: its bytes, round trips, and refusals 4, 10, 12 and 14.

use crate::common::*;
use crate::{file, odd, trailed, NONE};
use second::edition::Edition::{One, Two};
use second::edition::Range;
use second::file::{fetch, open, trailer, write_record, Opened, RefusedFetch};
use second::record::Record;
use second::refusals::{check_record, Refusal};

#[test]
fn bytes_of_a_record_and_a_trailer() {
    let bytes = file(Two, 0, &[odd()]);
    assert_eq!(bytes[..8], [2, 1, 0, 0, 4, 3, 2, 1]);
    assert_eq!(bytes[8..20], [0x90, 1, 0, 0, 0, 0, 1, 0, 0x80, 0x0C, 0, 0]);
    assert_eq!(bytes[20..32], [80, 0, 0, 0, 0x40, 0x42, 0x0F, 0, 0, 0, 0, 0]);
    assert_eq!(bytes[32..40], [1, 0, 0, 0, 0xFE, 0xFF, 0xFF, 0xFF]);
    assert_eq!(bytes[80..88], [0, 0, 0xF0, 0xFF, 0, 0, 0x10, 0]);
    assert_eq!(bytes[128..], *b"QEND\x02\0\0\0\x80\0\0\0\x01\0\0\0");
}

#[test]
fn round_trip() {
    let records = [first_case(), odd(), Record { separations: [0, 1, 2], ..first_case() }];
    for leading in [0, 1, 16, 116, 128, 300] {
        let bytes = file(Two, leading, &records);
        assert_eq!(open(&bytes), Ok(Opened { edition: Two, first: leading, count: 3 }));
        for (n, record) in records.iter().enumerate() {
            assert_eq!(fetch(&bytes, n as u32), Ok(*record));
        }
        let absent = RefusedFetch { refusal: Refusal::Index, id: None };
        assert_eq!(fetch(&bytes, 3), Err(absent));
    }
    assert_eq!(open(&file(Two, 5, &[])), Ok(Opened { edition: Two, first: 5, count: 0 }));
}

#[test]
fn any_separation_out_of_range_is_refused_4() {
    for axis in 0..3 {
        for (separation, expected) in [(65_536, 0), (65_537, 4), (1 << 31, 4), (u32::MAX, 4)] {
            let mut record = odd();
            record.separations[axis] = separation;
            assert_eq!(written(2, &record, 128), expected);
            let number = check_record(&record, Range::SHORTER).map_or_else(Refusal::number, |()| 0);
            assert_eq!(number, expected);
            record.tolerance = 0;
            assert_eq!(written(2, &record, 128), if expected == 0 { 5 } else { 4 });
            record.end[3][2] = -M - 1;
            assert_eq!(written(2, &record, 128), 3);
        }
    }
}

#[test]
fn edition_1_has_no_room_for_different_separations() {
    for separations in [[0, 0, 1], [0, 1, 0], [1, 0, 0], [400, 400, 3200], [0, 1, 2]] {
        let record = Record { separations, ..first_case() };
        assert_eq!(written(2, &record, 128), 0);
        assert_eq!(written(1, &record, 128), 4);
        // In 4's place: behind 1 to 3, before 5, 6 and 14.
        assert_eq!(written(1, &Record { kind: 0, ..record }, 0), 1);
        assert_eq!(written(1, &Record { byte3: 1, ..record }, 0), 2);
        assert_eq!(written(1, &Record { end: [[-M - 1; 3]; 4], ..record }, 0), 3);
        assert_eq!(written(1, &Record { tolerance: 0, budget: 0, ..record }, 0), 4);
        // Another number is no edition and has no such rule.
        assert_eq!(NONE.map(|edition| written(edition, &record, 128)), [10; 5]);
    }
    let mut bytes = vec![0; 116];
    let equal = Record { separations: [9; 3], ..first_case() };
    write_record(&mut bytes, 0, 1, &equal).unwrap();
    assert_eq!(bytes, equal.bytes(One));
    assert_eq!(Record::from_bytes(One, &bytes), equal);
}

#[test]
fn opening_takes_three_editions_and_their_sizes() {
    for number in 0..=255 {
        let whole = |before: usize, back: u32, count: u32| {
            let mut bytes = vec![0; before];
            bytes.extend(trailer(Two, back, count));
            bytes[before + 4] = number;
            open(&bytes).map_or_else(Refusal::number, |opened| opened.first as u32)
        };
        // Edition 3 has edition 2's size.
        let by_edition =
            |one: u32, two: u32| [one, two, two, 10][usize::from(number).wrapping_sub(1).min(3)];
        assert_eq!(whole(300, 232, 2), by_edition(68, 12));
        assert_eq!(whole(300, 256, 2), by_edition(12, 44));
        assert_eq!(whole(255, 256, 2), by_edition(12, 12));
        assert_eq!(whole(256, 256, 2), by_edition(12, 0));
        assert_eq!(whole(300, 0, 0), by_edition(300, 300));
        assert_eq!(whole(300, 128, 0), by_edition(12, 12));
        assert_eq!(whole(300, 9, 4097), by_edition(11, 11));
    }
    for place in 5..8 {
        let mut bytes = file(Two, 0, &[odd()]);
        bytes[128 + place] = 1;
        assert_eq!(open(&bytes), Err(Refusal::Edition));
    }
}

#[test]
fn record_writes_give_the_lowest_then_10_then_14() {
    let bad = Record { budget: 0, ..odd() };
    assert_eq!([127, 128, 129].map(|space| written(2, &odd(), space)), [14, 0, 0]);
    assert_eq!([115, 116, 128].map(|space| written(1, &first_case(), space)), [14, 0, 0]);
    for edition in NONE {
        assert_eq!(written(edition, &odd(), 500), 10);
        assert_eq!(written(edition, &odd(), 0), 10);
        assert_eq!(written(edition, &bad, 0), 6);
    }
    assert_eq!(written(2, &bad, 0), 6);
    let mut bytes = vec![0xFF; 300];
    assert_eq!(write_record(&mut bytes, 173, 2, &odd()), Err(Refusal::Space));
    assert_eq!(write_record(&mut bytes, usize::MAX, 2, &odd()), Err(Refusal::Space));
    write_record(&mut bytes, 100, 2, &odd()).unwrap();
    assert_eq!(bytes[100..228], odd().bytes(Two));
    assert!(bytes[..100].iter().chain(&bytes[228..]).all(|byte| *byte == 0xFF));
}

#[test]
fn trailer_writes_give_10_11_12_14() {
    for edition in NONE {
        assert_eq!(trailed(edition, 0, 4097, 0), 10);
        assert_eq!(trailed(edition, 256, 2, 300), 10);
    }
    assert_eq!(trailed(2, 0, 4097, 0), 11);
    assert_eq!(trailed(2, 0, 4096, 0), 12);
    assert_eq!(trailed(2, 255, 2, 300), 12);
    assert_eq!(trailed(1, 255, 2, 300), 0);
    assert_eq!(trailed(2, 256, 2, 271), 14);
    assert_eq!(trailed(2, 256, 2, 272), 0);
    assert_eq!(trailed(2, usize::MAX, 4096, 9), 14);
}
