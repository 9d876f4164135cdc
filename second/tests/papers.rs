//! Records rendered from the source papers, S1 to S27.

mod common;

use common::*;
use second::edition::Range;
use second::record::Record;
use second::search::search_traced;

const MOST_WORDS: usize = 1 << 20;

#[test]
fn s01_hourglass() {
    let case = vf(
        [[1000; 3], [0, 0, 10000], [10000, 0, 10000], [0, 10000, 10000]],
        [[1000; 3], [0, 0, 0], [0, 10000, 0], [10000, 0, 0]],
    );
    assert_eq!(ask(case), met([943104, 104448, 104448, 6, 60]));
    assert_eq!(ask(Record { tolerance: 1000, ..case }), met([917504, 65536, 65536, 375, 25]));
    let apart = Record { separations: [100; 3], ..case };
    assert_eq!(ask(apart), spent([929792, 90112, 94208, 37, 1000]));
    let patient = Record { budget: 1_000_000, ..apart };
    assert_eq!(ask(patient), room([931840, 90112, 110592, 19, 4585]));
    assert_eq!(ask_with(patient, MOST_WORDS), met([932864, 91136, 111616, 10, 14823]));
}

#[test]
fn s02_inflection() {
    let case = vf(
        [[1000, 1000, 0], [0, 0, 5000], [2000, 0, 2000], [0, 1000, 0]],
        [[1000, 1000, 0], [0, 0, -1000], [0, 0, -2000], [0, 7000, 0]],
    );
    assert_eq!(ask(case), clear(149));
}

#[test]
fn s03_coplanar() {
    let z = 10000;
    let p = [10000, 5000, z];
    let case = vf(
        [p, [0, 5700, z], [10000, 5700, z], [10000, 15700, z]],
        [p, [0, 2800, z], [10000, 2800, z], [10000, 12800, z]],
    );
    assert_eq!(ask(case), spent([229376, 1032192, 0, 157, 1000]));
    let patient = Record { budget: 1_000_000, ..case };
    assert_eq!(ask_with(patient, MOST_WORDS), met([251904, 1047040, 0, 15, 12521]));
}

#[test]
fn s04_contact_only_at_the_end() {
    let case = ee([[0, 0, -50], [0, 0, 0], [0, 0, 50], [0, 50, 0]], [[0; 3]; 4]);
    assert_eq!(ask(Record { tolerance: 40, ..case }), met([786432, 0, 0, 25, 22]));
    assert_eq!(ask(case), met([917504, 0, 0, 13, 30]));
}

#[test]
fn s05_two_roots_of_edges() {
    let case = ee(
        [[-100, 0, 0], [100, 0, 0], [0, -1000, 0], [0, 1000, 3000]],
        [[-100, 0, 0], [100, 0, 0], [0, -1000, 16000], [0, 2000, -29000]],
    );
    assert_eq!(ask(case), met([261120, 458752, 465920, 13, 845]));
}

#[test]
fn s06_two_roots_of_a_face() {
    let case = vf(
        times(1000, [[3, 1, -1], [4, -4, 0], [4, 3, -3], [0, -3, 3]]),
        times(1000, [[1, -1, 1], [-3, 3, 3], [4, -1, 4], [0, -1, -1]]),
    );
    assert_eq!(ask(case), met([90112, 702464, 301056, 7, 588]));
}

#[test]
fn s07_three_roots_of_a_face() {
    let case = vf(
        times(1000, [[-2, -2, -1], [-4, 1, 4], [-3, -2, -3], [3, -3, -1]]),
        times(1000, [[2, 3, -2], [3, 4, -3], [3, -1, -4], [-1, 2, 0]]),
    );
    assert_eq!(ask(Record { budget: 2000, ..case }), met([231424, 558080, 210944, 12, 1419]));
}

#[test]
fn s08_three_roots_of_edges() {
    let case = ee(
        times(1000, [[0, 3, 0], [0, -3, -1], [-2, 4, 1], [1, 0, -1]]),
        times(1000, [[-2, 0, -3], [3, 4, -3], [4, 3, -2], [-1, 1, -3]]),
    );
    assert_eq!(ask(Record { budget: 2000, ..case }), met([55296, 264192, 667648, 5, 1458]));
}

#[test]
fn s09_and_s10_coplanar_and_apart() {
    assert_eq!(ask(falls([1000, 1000, 0], [1000, 500, 0], G)), clear(1));
    let past = falls([300, 50, 0], [50, 300, 0], T);
    assert_eq!(ask(past), clear(52));
    assert_eq!(ask(Record { separations: [49; 3], ..past }), clear(159));
    let touches = Record { separations: [75; 3], budget: 2000, ..past };
    assert_eq!(ask(touches), met([0, 819200, 180224, 13, 1295]));
}

#[test]
fn s11_coplanar_parallel_edges() {
    let case = ee(
        [[0, 0, 0], [400, 400, 0], [100, 0, 0], [500, 400, 0]],
        [[0, 0, 0], [400, 400, 0], [300, 200, 0], [700, 600, 0]],
    );
    assert_eq!(ask(case), clear(415));
}

#[test]
fn s12_parallel_edges_meet_along_a_line() {
    let case = ee(
        [[0, 0, 1000], [1000, 0, 1000], [0, 0, 0], [1000, 0, 0]],
        [[0, 0, -1000], [1000, 0, -1000], [0, 0, 0], [1000, 0, 0]],
    );
    assert_eq!(ask(case), spent([507904, 0, 0, 32, 1000]));
    let longer = Record { budget: 4000, ..case };
    assert_eq!(ask_with(longer, 2030), room([520192, 0, 0, 8, 3899]));
    assert_eq!(ask_with(longer, 2032), met([520192, 0, 0, 8, 3900]));
    let apart = Record { separations: [100; 3], budget: 1_000_000, ..case };
    let (answer, trace) = search_traced(&apart, Range::SHORTER, MOST_WORDS);
    assert_eq!(answer, met([471040, 0, 0, 2, 102524]));
    assert_eq!(trace.peak, 88088);
}

#[test]
fn s13_collinear_edges_touch_at_the_end() {
    let still = [[0, 0, 0], [200, 0, 0]];
    let start = [[-300, 0, 0], [-100, 0, 0], still[0], still[1]];
    let touch = ee(start, [[-200, 0, 0], [0, 0, 0], still[0], still[1]]);
    assert_eq!(ask(touch), met([1015808, 1015808, 0, 10, 31]));
    let short = ee(start, [[-201, 0, 0], [-1, 0, 0], still[0], still[1]]);
    assert_eq!(ask(short), clear(1));
}

#[test]
fn s14_point_meets_point() {
    let case = falls([0, 0, 100], [0, 0, -100], O);
    assert_eq!(ask(case), met([458752, 0, 0, 13, 13]));
    let (above, below, still) = ([0, 0, 100], [0, 0, -100], [0, 0, 0]);
    let edges = ee([above, above, still, still], [below, below, still, still]);
    assert_eq!(ask(edges), met([458752, 0, 0, 13, 13]));
}

#[test]
fn s15_to_s17_on_the_rim_of_the_face() {
    let on_v3 = falls([0, 100, 1000], [0, 100, -1000], G);
    assert_eq!(ask(on_v3), met([516096, 0, 917504, 16, 49]));
    let on_side = falls([50, 50, 1000], [50, 50, -1000], G);
    assert_eq!(ask(on_side), met([516096, 393216, 393216, 16, 107]));
    let large = [[0, 0, 0], [100000, 0, 0], [0, 100000, 0]];
    let on_long = falls([50000, 50000, 1000], [50000, 50000, -1000], large);
    assert_eq!(ask(on_long), met([516096, 524160, 524160, 16, 365]));
    let beside = falls([50033, 50000, 1000], [50033, 50000, -1000], large);
    assert_eq!(ask(beside), clear(157));
}

#[test]
fn s18_and_s19_contact_at_an_end_of_time() {
    let lands = falls([0, 0, 1000], [0, 0, 0], T);
    assert_eq!(ask(lands), met([1032192, 229376, 229376, 16, 83]));
    assert_eq!(ask(falls([0, 0, 1000], [0, 0, 1], T)), clear(1));
    let leaves = falls([0, 0, 0], [0, 0, 1000], T);
    assert_eq!(ask(leaves), met([0, 229376, 229376, 13, 83]));
}

#[test]
fn s20_and_s21_one_instant() {
    let graze = Record { separations: [100; 3], ..falls([-300, -500, 0], [500, 300, 0], O) };
    assert_eq!(ask(graze), met([507904, 0, 0, 13, 21]));
    let one_less = Record { separations: [100; 3], ..falls([-300, -501, 0], [500, 299, 0], O) };
    assert_eq!(ask(one_less), met([524288, 0, 0, 1, 12]));
    assert_eq!(ask(Record { separations: [99; 3], ..graze }), clear(3));
    assert_eq!(ask(falls([400, 400, 0], [0, 0, 1000], T)), clear(11));
}

#[test]
fn s22_both_bodies_move_alike() {
    let start = [[0, 0, 100], T[0], T[1], T[2]];
    let case = vf(start, start.map(|[x, y, z]| [x + 1_000_000, y, z]));
    assert_eq!(ask(Record { separations: [99; 3], ..case }), clear(1));
    assert_eq!(ask(Record { separations: [100; 3], ..case }), met([0, 0, 0, 0, 1]));
}

#[test]
fn s23_collapsing_face() {
    let case = vf(
        [[10, 10, 1000], [0, 0, 0], [1000, 0, 0], [0, 1000, 0]],
        [[10, 10, -1000], [0, 0, 0], [0, 0, 0], [0, 0, 0]],
    );
    assert_eq!(ask(case), met([516096, 0, 0, 16, 65]));
}

#[test]
fn s24_tunnelling_at_full_range() {
    let case = falls([0, 0, M], [0, 0, -M], [[-M, -M, 0], [M, -M, 0], [-M, M, 0]]);
    let (answer, trace) = search_traced(&case, Range::SHORTER, 4096);
    assert_eq!(answer, met([524280, 524280, 524280, 16, 707]));
    // 51 levels are checked to their end, each parameter split 17 times; the next one answers.
    assert_eq!(trace.level_ends.len(), 51);
}

#[test]
fn s25_scaled_width_of_2_to_63() {
    let case = vf(
        [[-M, 100, 0], [-M, 0, 0], [M, 0, 0], [M, 0, 0]],
        [[M, -100, 0], [M, 0, 0], [-M, 0, 0], [-M, 0, 0]],
    );
    assert_eq!(ask(case), spent([507904, 0, 0, 4, 1000]));
    assert_eq!(ask(Record { tolerance: 1_048_576, ..case }), met([393216, 0, 0, 25, 9]));
}

#[test]
fn s26_sliding_in_the_plane() {
    let case = falls([-500, 0, 0], [500, 0, 0], T);
    assert_eq!(ask(case), spent([417792, 0, 229376, 13, 1000]));
    assert_eq!(ask(Record { budget: 2000, ..case }), met([417792, 0, 229376, 13, 1096]));
    assert_eq!(ask(falls([-500, 0, 1], [500, 0, 1], T)), clear(1));
}

#[test]
fn s27_one_unit_apart_at_the_corner_of_the_range() {
    let case = falls([M; 3], [M; 3], [[M, M, M - 1], [M - 1, M, M - 1], [M, M - 1, M - 1]]);
    assert_eq!(ask(case), clear(1));
    assert_eq!(ask(Record { separations: [1; 3], ..case }), met([0, 0, 0, 0, 1]));
}
