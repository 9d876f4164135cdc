//! The query file: round trips, refusals 8 to 14, and what a writer leaves alone.

use crate::common::*;
use second::edition::Edition::One;
use second::file::{fetch, open, trailer, write_record, write_trailer, Opened, RefusedFetch};
use second::record::Record;
use second::refusals::Refusal;

/// Leading bytes, then these records, then the trailer, by the writers.
fn file(leading: usize, records: &[Record]) -> Vec<u8> {
    let mut bytes = vec![0xA5; leading + 116 * records.len() + 16];
    for (n, record) in records.iter().enumerate() {
        write_record(&mut bytes, leading + 116 * n, 1, record).unwrap();
    }
    let at = leading + 116 * records.len();
    write_trailer(&mut bytes, at, 1, records.len() as u32).unwrap();
    bytes
}

/// Three records that differ in every field that a valid one may.
fn three() -> [Record; 3] {
    let mut odd = ee([[1, -2, 3], [-4, 5, -6], [7, -8, 9], [-10, 11, -12]], [[-M, M, 0]; 4]);
    odd.flags = 1;
    odd.id = u32::MAX;
    odd.separations = [65_536; 3];
    odd.tolerance = 1_048_576;
    odd.budget = 1_000_000;
    [first_case(), odd, Record { id: 0x01020304, ..falls([5, 6, 7], [-8, -9, -10], T) }]
}

fn refused(refusal: Refusal) -> Result<Record, RefusedFetch> {
    Err(RefusedFetch { refusal, id: None })
}

#[test]
fn round_trip() {
    for leading in [0, 1, 15, 16, 17, 116, 300] {
        let bytes = file(leading, &three());
        assert_eq!(open(&bytes), Ok(Opened { edition: One, first: leading, count: 3 }));
        for (n, record) in three().iter().enumerate() {
            assert_eq!(fetch(&bytes, n as u32), Ok(*record));
        }
        assert_eq!(fetch(&bytes, 3), refused(Refusal::Index));
        assert_eq!(fetch(&bytes, u32::MAX), refused(Refusal::Index));
        assert!(bytes[..leading].iter().all(|byte| *byte == 0xA5));
    }
}

#[test]
fn bytes_of_a_record_and_a_trailer() {
    let bytes = file(0, &three()[2..]);
    assert_eq!(bytes[..8], [1, 0, 0, 0, 4, 3, 2, 1]);
    assert_eq!(bytes[8..20], [0, 0, 0, 0, 16, 0, 0, 0, 0xE8, 3, 0, 0]);
    assert_eq!(bytes[20..32], [5, 0, 0, 0, 6, 0, 0, 0, 7, 0, 0, 0]);
    assert_eq!(bytes[32..36], [0x9C, 0xFF, 0xFF, 0xFF]);
    assert_eq!(bytes[68..72], [0xF8, 0xFF, 0xFF, 0xFF]);
    assert_eq!(bytes[116..124], *b"QEND\x01\0\0\0");
    assert_eq!(bytes[124..], [116, 0, 0, 0, 1, 0, 0, 0]);
}

#[test]
fn no_records() {
    let bytes = file(0, &[]);
    assert_eq!(bytes, *b"QEND\x01\0\0\0\0\0\0\0\0\0\0\0");
    assert_eq!(open(&bytes), Ok(Opened { edition: One, first: 0, count: 0 }));
    assert_eq!(fetch(&bytes, 0), refused(Refusal::Index));
}

#[test]
fn short_mark_and_edition() {
    let whole = file(0, &three());
    for length in 0..16 {
        assert_eq!(open(&whole[whole.len() - length..]), Err(Refusal::Short));
    }
    assert_eq!(fetch(&[], 9), refused(Refusal::Short));
    let at = whole.len() - 16;
    for place in 0..8 {
        for flip in 1..=255 {
            let mut bytes = whole.clone();
            bytes[at + place] ^= flip;
            // The bytes 2 and 3 are those of editions whose records are longer.
            let expected = match (place, bytes[at + place]) {
                (0..=3, _) => Refusal::Mark,
                (4, 2 | 3) => Refusal::Back,
                _ => Refusal::Edition,
            };
            assert_eq!(open(&bytes), Err(expected));
            assert_eq!(fetch(&bytes, 9), refused(expected));
        }
    }
}

#[test]
fn count_and_back_pointer() {
    let end_with = |before: usize, back: u32, count: u32| {
        let mut bytes = vec![0; before];
        bytes.extend(trailer(One, back, count));
        open(&bytes)
    };
    let most = 4096 * 116;
    assert_eq!(
        end_with(most, most as u32, 4096),
        Ok(Opened { edition: One, first: 0, count: 4096 })
    );
    assert_eq!(end_with(most + 116, most as u32 + 116, 4097), Err(Refusal::Count));
    assert_eq!(end_with(0, 0, u32::MAX), Err(Refusal::Count));
    assert_eq!(end_with(most, most as u32 - 1, 4096), Err(Refusal::Back));
    assert_eq!(end_with(most - 1, most as u32, 4096), Err(Refusal::Back));
    assert_eq!(end_with(232, 116, 2), Err(Refusal::Back));
    assert_eq!(end_with(232, 232, 1), Err(Refusal::Back));
    assert_eq!(end_with(233, 232, 2), Ok(Opened { edition: One, first: 1, count: 2 }));
    assert_eq!(end_with(231, 232, 2), Err(Refusal::Back));
    assert_eq!(end_with(200, 1, 0), Err(Refusal::Back));
    assert_eq!(end_with(0, u32::MAX, 0), Err(Refusal::Back));
}

#[test]
fn lowest_of_every_damage() {
    // Mark, edition, count, back pointer: 9 to 12.
    for chosen in 1_u32..16 {
        let mut bytes = file(4, &three());
        let at = bytes.len() - 16;
        let places = [at + 3, at + 6, at + 14, at + 8];
        for n in (0..4).filter(|n| chosen >> n & 1 == 1) {
            bytes[places[n]] ^= 1;
        }
        let expected = open(&bytes).map_err(Refusal::number);
        assert_eq!(expected, Err(9 + chosen.trailing_zeros()));
    }
}

#[test]
fn index_comes_before_the_record_and_the_record_keeps_its_id() {
    let mut bytes = file(7, &three());
    bytes[7 + 116] = 9;
    bytes[7 + 116 + 2] = 1;
    let id = Some(u32::MAX);
    assert_eq!(fetch(&bytes, 1), Err(RefusedFetch { refusal: Refusal::Kind, id }));
    bytes[7 + 116] = 2;
    assert_eq!(fetch(&bytes, 1), Err(RefusedFetch { refusal: Refusal::Flags, id }));
    assert_eq!(fetch(&bytes, 3), refused(Refusal::Index));
    assert_eq!(fetch(&bytes, 2), Ok(three()[2]));
}

#[test]
fn writers_change_their_bytes_only() {
    let mut bytes = vec![0xFF; 200];
    write_record(&mut bytes, 84, 1, &first_case()).unwrap();
    assert!(bytes[..84].iter().all(|byte| *byte == 0xFF));
    assert_eq!(bytes[84..], first_case().bytes(One));
    let mut bytes = vec![0xFF; 200];
    write_trailer(&mut bytes, 120, 1, 1).unwrap();
    assert!(bytes[..120].iter().chain(&bytes[136..]).all(|byte| *byte == 0xFF));
    assert_eq!(bytes[120..136], trailer(One, 116, 1));
}

#[test]
fn refused_record_writes() {
    let bad = Record { budget: 0, ..first_case() };
    let cases = [
        (84, first_case(), Ok(())),
        (85, first_case(), Err(Refusal::Space)),
        (200, first_case(), Err(Refusal::Space)),
        (usize::MAX, first_case(), Err(Refusal::Space)),
        (0, bad, Err(Refusal::Budget)),
        (usize::MAX, bad, Err(Refusal::Budget)),
    ];
    for (at, record, expected) in cases {
        let mut bytes = vec![0xFF; 200];
        assert_eq!(write_record(&mut bytes, at, 1, &record), expected);
        assert_eq!(bytes == vec![0xFF; 200], expected.is_err());
    }
}

#[test]
fn refused_trailer_writes() {
    let cases = [
        (184, 1, Ok(())),
        (185, 1, Err(Refusal::Space)),
        (201, 0, Err(Refusal::Space)),
        (usize::MAX, 4096, Err(Refusal::Space)),
        (115, 1, Err(Refusal::Back)),
        (231, 2, Err(Refusal::Back)),
        (232, 2, Err(Refusal::Space)),
        (0, 4096, Err(Refusal::Back)),
        (0, 4097, Err(Refusal::Count)),
        (usize::MAX, u32::MAX, Err(Refusal::Count)),
    ];
    for (at, count, expected) in cases {
        let mut bytes = vec![0xFF; 200];
        assert_eq!(write_trailer(&mut bytes, at, 1, count), expected);
        assert_eq!(bytes == vec![0xFF; 200], expected.is_err());
    }
}
