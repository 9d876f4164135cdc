//! Refusal 22: in the search, on fetching and on writing, and what edition 1 has no room for.

use crate::common::*;
use crate::first;
use second::edition::Edition::{self, One, Three, Two};
use second::file::{fetch, file_of, RefusedFetch};
use second::record::Record;
use second::refusals::{check_record, Refusal, MOST_CAP};

/// Caps at the ends of their range, and each with another highest bit.
fn caps() -> Vec<(u32, u32)> {
    let ends = [0, 1, 2, MOST_CAP - 1, MOST_CAP, MOST_CAP + 1, MOST_CAP + 2, u32::MAX];
    let bits = (0..32).flat_map(|bit| [1 << bit, (1 << bit) | 1]);
    let refusal = |cap: u32| if cap > MOST_CAP { 22 } else { 0 };
    ends.into_iter().chain(bits).map(|cap| (cap, refusal(cap))).collect()
}

#[test]
fn word_at_28_is_read_and_written() {
    for edition in [Two, Three] {
        for (cap, number) in caps() {
            let file = file_of(edition, &[first(cap)]);
            assert_eq!(file[28..32], cap.to_le_bytes());
            let id = Some(1);
            let must = if number == 0 {
                Ok(first(cap))
            } else {
                Err(RefusedFetch { refusal: Refusal::Cap, id })
            };
            assert_eq!(fetch(&file, 0), must);
            assert_eq!(written(edition.number(), &first(cap), 128), number);
            assert_eq!(
                check_record(&first(cap), edition.range()).map_or_else(Refusal::number, |()| 0),
                number
            );
        }
    }
}

#[test]
fn flags_no_longer_look_at_it() {
    for (cap, _) in caps() {
        for (flags, byte2, byte3) in [(2, 0, 0), (0, 1, 0), (0, 0, 1)] {
            let record = Record { flags, byte2, byte3, ..first(cap) };
            assert_eq!(written(2, &record, 128), 2);
        }
        assert_eq!(
            written(2, &Record { flags: 1, ..first(cap) }, 128),
            if cap > MOST_CAP { 22 } else { 0 }
        );
    }
}

#[test]
fn it_comes_after_6_and_before_10_and_14() {
    let far = MOST_CAP + 1;
    let mut outside = first(far);
    outside.end[3][2] = i32::MAX;
    let behind = [
        (Record { kind: 0, ..first(far) }, 1),
        (Record { byte3: 1, ..first(far) }, 2),
        (outside, 3),
        (Record { separations: [0, 65_537, 0], ..first(far) }, 4),
        (Record { tolerance: 15, ..first(far) }, 5),
        (Record { budget: 0, ..first(far) }, 6),
        (first(far), 22),
    ];
    for edition in [1, 2, 3, 0, 4, 129, 255] {
        assert_eq!(behind.map(|(record, _)| written(edition, &record, 0)), behind.map(|(_, n)| n));
    }
    assert_eq!([0, 4, 129, 255].map(|edition| written(edition, &first(1), 0)), [10; 4]);
    assert_eq!([2, 3].map(|edition| written(edition, &first(1), 127)), [14; 2]);
}

#[test]
fn edition_1_has_no_room_for_a_cap() {
    for cap in [1, 2, 262_144, MOST_CAP - 1, MOST_CAP, MOST_CAP + 1, u32::MAX] {
        assert_eq!(written(1, &first(cap), 116), 22);
        assert_eq!(written(1, &first(cap), 0), 22);
        assert_eq!(written(1, &Record { budget: 0, ..first(cap) }, 0), 6);
    }
    assert_eq!(written(1, &first(0), 116), 0);
    assert_eq!(written(1, &first(0), 115), 14);
    // What edition 1's bytes say has none.
    assert_eq!(Record::from_bytes(One, &first(77).bytes(One)), first(0));
}

#[test]
fn edition_that_has_no_room_refuses_in_the_order_of_the_papers() {
    let unequal = |cap: u32| Record { separations: [1, 1, 2], ..first(cap) };
    assert_eq!(written(1, &unequal(0), 128), 4);
    assert_eq!(written(1, &first(1), 128), 22);
    assert_eq!(written(1, &unequal(1), 128), 4);
    assert_eq!(written(1, &Record { budget: 0, ..unequal(1) }, 128), 4);
    assert_eq!(written(4, &unequal(1), 128), 10);
    assert_eq!(written(4, &Record { budget: 0, ..unequal(1) }, 128), 6);
}

#[test]
fn records_with_caps_go_between_editions_2_and_3() {
    for (from, to) in [(Two, Three), (Three, Two)] {
        let record = fetch(&file_of(from, &[first(77)]), 0).unwrap();
        assert_eq!(written(to.number(), &record, 128), 0);
        assert_eq!(written(Edition::One.number(), &record, 128), 22);
    }
}
