//! The generators of edition 3: how far out they go, how deep, and around its least tolerance.

use crate::common::{files, ranged, records};
use second::edition::{Edition, Range};
use second::file::{open, TRAILER_BYTES};
use second::gen::{generate, queries::queries};
use second::record::Record;
use second::refusals::{check_record, Refusal};
use second::search::search;
use second::text::sweep;

const SEEDS: u64 = 30;

fn all_records(flavour: &str) -> Vec<Record> {
    files(flavour, SEEDS).iter().flat_map(|file| records(file)).collect()
}

fn number(record: &Record, range: Range) -> u32 {
    check_record(record, range).map_or_else(Refusal::number, |()| 0)
}

fn coordinates(record: &Record) -> impl Iterator<Item = &i32> {
    record.start.iter().chain(&record.end).flatten()
}

#[test]
fn half_of_every_shape_is_out_of_the_shorter_range_and_many_are_at_the_ends() {
    for flavour in ["tiny3", "full3", "degenerate3", "extreme3", "deep3", "budget3", "queue3"] {
        let records = all_records(flavour);
        let how_many = |is_so: &dyn Fn(&i32) -> bool| {
            records.iter().filter(|record| coordinates(record).any(is_so)).count()
        };
        assert!(records.iter().all(|record| number(record, Range::LONGER) == 0), "{flavour}");
        assert!(2 * how_many(&|coordinate| !Range::SHORTER.holds(*coordinate)) > records.len());
        for end in [-2_097_152, 2_097_152] {
            assert!(3 * how_many(&|coordinate| *coordinate == end) > records.len(), "{flavour}");
        }
    }
    // The first that edition 2 does not take.
    let tiny = all_records("tiny3");
    let just = |record: &&Record| coordinates(record).max() == Some(&1_048_577);
    assert!(tiny.iter().filter(just).count() >= 5);
}

#[test]
fn some_records_could_be_of_any_edition() {
    for flavour in ["tiny3", "degenerate3", "mixed3"] {
        let records = all_records(flavour);
        let any = |record: &&Record| number(record, Range::SHORTER) == 0;
        assert!(8 * records.iter().filter(any).count() > records.len(), "{flavour}");
    }
}

#[test]
fn what_is_moved_out_is_answered_as_what_is_not() {
    let motion = |record: &Record| {
        let second_body = record.second_body();
        let sign = if record.flags & 1 == 1 { -1 } else { 1 };
        [record.start, record.end].map(|mut points| {
            points[second_body..].iter_mut().for_each(|point| point[1] *= sign);
            // From the first point on, so that the way out is taken back.
            points.map(|point| [0, 1, 2].map(|axis| point[axis] - points[0][axis]))
        })
    };
    for (record, range) in files("tiny3", 20).iter().flat_map(|file| ranged(file)) {
        let [start, end] = motion(&record);
        let near = Record { flags: 0, start, end, ..record };
        assert_eq!(search(&near, range, 4096), search(&record, range, 4096));
    }
}

#[test]
fn deep_motions_need_the_depth_that_t_has() {
    for (flavour, deepest) in [("deep", 20), ("deep2", 20), ("deep3", 19)] {
        let queries: Vec<_> = files(flavour, SEEDS).iter().flat_map(|file| ranged(file)).collect();
        let otherwise = |by: u32| {
            let other = |range: Range| Range { deepest: by, ..range };
            let differs = |(record, range): &&(Record, Range)| {
                search(record, *range, 4096) != search(record, other(*range), 4096)
            };
            queries.iter().filter(differs).count()
        };
        assert!(2 * otherwise(deepest - 1) > queries.len(), "{flavour}");
        // No grid has more than 20 depths of parts.
        if deepest < 20 {
            assert!(2 * otherwise(deepest + 1) > queries.len(), "{flavour}");
        }
    }
}

#[test]
fn tolerances_stand_around_the_least() {
    let refused = all_records("refusals3");
    for tolerance in [15, 16, 63] {
        let alone =
            |record: &&Record| record.tolerance == tolerance && number(record, Range::LONGER) == 5;
        assert!(refused.iter().filter(alone).count() >= 3, "{tolerance}");
    }
    let between = |record: &&Record| (17..63).contains(&record.tolerance);
    assert!(refused.iter().filter(between).count() >= 10);
    let least = |record: &&Record| record.tolerance == 64 && number(record, Range::LONGER) == 0;
    assert!(all_records("tiny3").iter().filter(least).count() >= 100);
    // Those of edition 2 that edition 3 does not take.
    let close = |record: &&Record| (16..64).contains(&record.tolerance);
    assert!(all_records("tiny2").iter().filter(close).count() >= 100);
}

#[test]
fn coordinates_stand_around_the_ends() {
    for (flavour, most) in [("refusals2", 1_048_576), ("refusals3", 2_097_152)] {
        for coordinate in [most, -most, most + 1, -most - 1] {
            let there = |record: &&Record| coordinates(record).any(|c| *c == coordinate);
            assert!(all_records(flavour).iter().filter(there).count() >= 3, "{coordinate}");
        }
    }
}

#[test]
fn damage_crosses_the_editions() {
    let files = files("damaged3", 400);
    let byte = |file: &Vec<u8>| file[file.len() - TRAILER_BYTES + 4];
    let numbers = |edition: u8| {
        let of = files.iter().filter(|file| byte(file) == edition);
        of.map(|file| open(file).map_or_else(Refusal::number, |_| 0)).collect::<Vec<_>>()
    };
    for edition in 1..=3 {
        assert!([0, 12].iter().all(|n| numbers(edition).contains(n)), "{edition}");
    }
    for edition in [0, 4, 129] {
        assert!(numbers(edition).contains(&10), "{edition}");
    }
    // Records that only one of two editions of the same size takes, behind the trailer of the other.
    let of_two = files.iter().filter(|file| open(file).is_ok_and(|o| o.edition == Edition::Two));
    let mut records = of_two.flat_map(|file| records(file));
    assert!(records.any(|r| [Range::SHORTER, Range::LONGER].map(|by| number(&r, by)) == [3, 0]));
}

#[test]
fn sizes_are_exact() {
    let most = generate(1, "most3").unwrap();
    assert_eq!(most.len(), 511 * 128 + 16);
    assert!(sweep(&most, 4096).contains("TOTAL 511 "));
    let many = generate(1, "many3").unwrap();
    assert_eq!((open(&many).unwrap().count, many.len()), (4096, 4096 * 128 + 16));
    for (flavour, length) in [("edge65536-3", 65_536), ("edge65537-3", 65_537)] {
        assert!(files(flavour, 8).iter().all(|file| file.len() == length));
    }
}

#[test]
fn queries_go_beyond_the_shorter_range() {
    let text = queries(1, 300, Edition::Three);
    let far = text.lines().filter(|line| {
        let numbers: Vec<i64> = line.split(' ').map(|number| number.parse().unwrap()).collect();
        let beyond = numbers[12..36].iter().any(|c| c.abs() > 1_048_576);
        assert!(numbers[36] == 0 || numbers[37..40].iter().all(|part| part % 2 == 0));
        beyond && numbers[36] != 0
    });
    assert!(far.count() > 100);
}
