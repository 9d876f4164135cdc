//! worked rows of the longer range, and motions at its very ends.

use crate::common::*;
use second::edition::Edition::Three;
use second::edition::Range;
use second::file::file_of;
use second::gap::Motion;
use second::record::{Point, Record};
use second::refusals::{check_record, Refusal};
use second::search::{search, search_traced, Answer};
use second::text::sweep;
use second::told::told;

/// A point falls through a face, both as far out as a range reaches.
fn tunnel(most: i32, tolerance: u32) -> Record {
    let face = [[-most, -most, 0], [most, -most, 0], [-most, most, 0]];
    Record { tolerance, ..falls([0, 0, most], [0, 0, -most], face) }
}

#[test]
fn tunnelling_at_the_longer_range() {
    let case = tunnel(M3, 1_048_576);
    assert_eq!(ask3(case), met([262144, 262144, 262144, 1048576, 47]));
    let close = Record { tolerance: 64, budget: 20_000, ..case };
    assert_eq!(ask3(close), met([524272, 524272, 524272, 64, 663]));
    assert_eq!(ask(case), Answer::Refused(Refusal::Coord));
    assert_eq!(ask3(tunnel(M3 + 1, 1_048_576)), Answer::Refused(Refusal::Coord));
    let one_more = Record { end: [[0, 0, -M3 - 1], case.end[1], case.end[2], case.end[3]], ..case };
    assert_eq!(ask3(one_more), Answer::Refused(Refusal::Coord));
}

#[test]
fn first_case_in_edition_3() {
    let case = first_case();
    assert_eq!(ask3(case), met([262144, 0, 0, 500, 5]));
    assert_eq!(ask3(Record { tolerance: 64, ..case }), met([491520, 131072, 131072, 63, 69]));
    let close = Record { tolerance: 63, ..case };
    assert_eq!(ask3(close), Answer::Refused(Refusal::Tolerance));
    let mut far = close;
    far.start[0][2] = M3 + 1;
    assert_eq!(ask3(far), Answer::Refused(Refusal::Coord));
    assert!(matches!(ask(close), Answer::Met(_)));
}

/// The row at which t is split 19 times and then takes no part.
fn deep() -> Record {
    let start = [[M3, 63670, -187960], [M3, -37, 2097151], [-M3, M3, -M3], [-M3, -M3, -M3]];
    let end =
        [[-M3, 65348, -1387294], [-M3, 0, 2094236], [M3, 2097115, -2097151], [M3, -2097151, -M3]];
    Record { separations: [0, 0, 2], tolerance: 64, budget: 6_000, ..vf(start, end) }
}

#[test]
fn t_at_depth_19_takes_no_part() {
    let (answer, trace) = search_traced(&deep(), Range::LONGER, 4096);
    assert_eq!(answer, met([524286, 376668, 344400, 48, 542]));
    assert_eq!(trace.log.last().unwrap().depths[0], 19);
    // One depth more would be another search, with an answer that may be odd.
    let deeper = search(&deep(), Range { deepest: 20, ..Range::LONGER }, 4096);
    assert_ne!(deeper, answer);
}

#[test]
fn swept_with_even_times_and_refused_by_its_own_range() {
    let records = [
        Record { id: 1, ..deep() },
        Record { id: 2, tolerance: 63, ..deep() },
        Record { id: 3, ..tunnel(M3, 1_048_576) },
        Record { id: 4, ..tunnel(M3 + 1, 1_048_576) },
    ];
    let text = "\
1 MET 524286 376668 344400 48 542
2 REFUSED 5
3 MET 262144 262144 262144 1048576 47
4 REFUSED 3
TOTAL 4 MET 2 CLEAR 0 SPENT 0 ROOM 0 FLOOR 0 REFUSED 2
";
    assert_eq!(sweep(&file_of(Three, &records), 4096), text);
}

/// Everything so many times as large, if the longer range takes that.
fn larger(record: &Record, factor: u32) -> Option<Record> {
    let larger = |points| times(factor as i32, points);
    let record = Record {
        separations: record.separations.map(|d| factor * d),
        tolerance: factor * record.tolerance,
        start: larger(record.start),
        end: larger(record.end),
        ..*record
    };
    check_record(&record, Range::LONGER).is_ok().then_some(record)
}

#[test]
fn everything_larger_is_the_same_search_down_to_depth_19() {
    let mut compared = [0; 2];
    for file in ["tiny2", "degenerate2", "full2", "extreme2"].iter().flat_map(|name| files(name, 6))
    {
        for (record, factor) in records(&file).into_iter().flat_map(|r| [(r, 2), (r, 4)]) {
            let Some(larger) = larger(&record, factor) else { continue };
            let (of_two, trace) = search_traced(&record, Range::SHORTER, 4096);
            let of_three = ask3(larger);
            if trace.log.last().unwrap().depths[0] >= 19 {
                continue;
            }
            compared[factor as usize / 4] += 1;
            let [two, three] = [of_two, of_three].map(|answer| told(&answer));
            assert_eq!((two[0], two[5]), (three[0], three[5]), "{record:?}");
            assert_eq!(two[1..4], three[1..4]);
            // Rounded up before it is made larger, and after.
            assert!(three[4] <= factor * two[4] && three[4] + factor > factor * two[4]);
        }
    }
    assert!(compared.iter().all(|number| *number >= 100), "{compared:?}");
}

/// What a search came to, and the greatest depth that it reached.
fn reached(record: &Record, range: Range) -> (Answer, u32) {
    let (answer, trace) = search_traced(record, range, 4096);
    let depths = trace.log.last().expect("level 0 at least").depths;
    (answer, depths.into_iter().max().expect("three depths"))
}

// At depth 19 a parameter that wins the split has at most 16 units of a box, so the box at most 48: with a tolerance of 64 it has answered.
#[test]
fn a_record_that_both_ranges_take_is_answered_alike() {
    let (mut alike, mut at_19) = (0, 0);
    let shapes = ["tiny2", "degenerate2", "full2", "extreme2", "deep2", "tiny3", "deep3"];
    for record in shapes.iter().flat_map(|name| files(name, 6)).flat_map(|file| records(&file)) {
        let record = Record { tolerance: record.tolerance.max(64), ..record };
        if check_record(&record, Range::SHORTER).is_err() {
            continue;
        }
        let (of_two, depth) = reached(&record, Range::SHORTER);
        assert!(depth < 20, "{record:?}");
        assert_eq!(reached(&record, Range::LONGER), (of_two, depth), "{record:?}");
        alike += 1;
        at_19 += usize::from(depth == 19);
    }
    assert!(alike >= 500 && at_19 > 0, "{alike} {at_19}");
}

#[test]
fn scaled_width_of_2_to_64() {
    // At the corners of level 0 F goes from minus four to four times the range, both times Q·Q here.
    let case = vf(
        [[-M3, 100, 0], [-M3, 0, 0], [M3, 0, 0], [M3, 0, 0]],
        [[M3, -100, 0], [M3, 0, 0], [-M3, 0, 0], [-M3, 0, 0]],
    );
    assert_eq!(Motion::of(&case).differences()[0], 1 << 64);
    assert_eq!(ask3(Record { tolerance: 64, budget: 1, ..case }), spent([0, 0, 0, 100, 1]));
    // Half of everything is a search of edition 2.
    let half = |points: [Point; 4]| points.map(|point| point.map(|coordinate| coordinate / 2));
    let smaller =
        Record { start: half(case.start), end: half(case.end), tolerance: 524_288, ..case };
    assert_eq!(larger(&smaller, 2), Some(Record { tolerance: 1_048_576, ..case }));
    // At three eighths a quarter of y is left, 12.5 and 25 units.
    assert_eq!(ask(smaller), met([393216, 0, 0, 13, 16]));
    assert_eq!(ask3(Record { tolerance: 1_048_576, ..case }), met([393216, 0, 0, 25, 16]));
}

#[test]
fn one_unit_apart_at_the_corner_of_the_range() {
    for sign in [1, -1] {
        let at = |x: i32, y: i32, z: i32| [sign * x, sign * y, sign * z];
        let face = [at(M3, M3, M3 - 1), at(M3 - 1, M3, M3 - 1), at(M3, M3 - 1, M3 - 1)];
        let case = Record { tolerance: 64, ..falls([sign * M3; 3], [sign * M3; 3], face) };
        assert_eq!(ask3(case), clear(1));
        assert_eq!(ask3(Record { separations: [1; 3], ..case }), met([0, 0, 0, 0, 1]));
    }
}

#[test]
fn largest_excess_is_twice_the_range_less_the_separation() {
    let apart = falls([M3; 3], [M3; 3], [[-M3; 3], [M3; 3], [M3; 3]]);
    // F at the first corner is twice the range; at the others it is nought, so the box survives.
    let case = Record { tolerance: 64, budget: 1, ..apart };
    assert_eq!(ask3(case), spent([0, 0, 0, 2 * M3 as u32, 1]));
    assert_eq!(
        ask3(Record { separations: [65_536; 3], ..case }),
        spent([0, 0, 0, 2 * M3 as u32 - 65_536, 1])
    );
}

#[test]
fn flag_negates_y_at_the_ends_of_the_range() {
    let still = [[0, M3, 0], [0, -M3, 0], [0, -M3, 0], [0, -M3, 0]];
    let case = Record { tolerance: 64, ..vf(still, still) };
    assert_eq!(ask3(case), clear(1));
    assert_eq!(ask3(Record { flags: 1, ..case }), met([0, 0, 0, 0, 1]));
}

#[test]
fn every_answer_of_edition_3_is_even() {
    let mut odd_elsewhere = 0;
    for file in ["deep3", "full3", "extreme3"].iter().flat_map(|name| files(name, 8)) {
        for (record, range) in ranged(&file) {
            assert_eq!(range, Range::LONGER);
            if let Some(corner) = search(&record, range, 4096).corner() {
                assert_eq!([corner.t % 2, corner.u % 2, corner.v % 2], [0; 3], "{record:?}");
            }
        }
    }
    for (record, range) in files("deep2", 8).iter().flat_map(|file| ranged(file)) {
        let answer = search(&record, range, 4096);
        odd_elsewhere += answer.corner().map_or(0, |corner| corner.t % 2);
    }
    assert!(odd_elsewhere > 0);
}
