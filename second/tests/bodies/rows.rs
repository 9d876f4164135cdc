//! R-9's worked rows: bounds, walks that are lent them, and a triangle replaced.

use second::bodies::bounds::{answer, apart, bounds, write_bounds};
use second::bodies::replacing::Kept;
use second::bodies::{told, Bodies, Body, NUMBERS};
use second::refusals::Refusal;

const T: [i32; 9] = [-100, -100, 0, 300, -100, 0, -100, 300, 0];
/// Its fourth corner is (200, 0, 50).
const S: [i32; 9] = [0, 0, 0, 100, 0, 0, 100, 0, 50];
const BOUND_OF_S: [i32; 6] = [0, 0, 0, 200, 0, 50];

/// A triangle so much further on an axis.
fn moved(mut triangle: [i32; 9], axis: usize, by: i32) -> [i32; 9] {
    triangle.iter_mut().skip(axis).step_by(3).for_each(|coordinate| *coordinate += by);
    triangle
}

fn body<'a>(start: &'a [i32], end: &'a [i32]) -> Body<'a> {
    Body { count: start.len() / NUMBERS, start, end }
}

/// The list of bounds in the shorter range, which is that of the longer one too.
fn listed(start: &[i32], end: &[i32]) -> Vec<i32> {
    let lists = [1, 2, 3].map(|edition| bounds(edition, &body(start, end)).unwrap());
    assert_eq!(lists[0], lists[1]);
    assert_eq!(lists[0], lists[2]);
    lists[0].clone()
}

fn number<T>(result: Result<T, Refusal>) -> u32 {
    result.map_or_else(Refusal::number, |_| 0)
}

/// 33 copies of S, each 300 in x behind the one before it.
fn row_of_s() -> Vec<i32> {
    (0..33).flat_map(|n| moved(S, 0, 300 * n)).collect()
}

#[test]
fn bounds_have_the_fourth_corner_at_the_start_and_at_the_end() {
    assert_eq!(listed(&T, &T), [-100, -100, 0, 300, 300, 0]);
    assert_eq!(listed(&S, &S), BOUND_OF_S);
    let end = [0, 0, 0, 100, 0, 0, -300, 0, 50];
    assert_eq!(listed(&S, &end), [-300, 0, 0, 200, 0, 50]);
    assert_eq!(listed(&end, &S), [-300, 0, 0, 200, 0, 50]);
}

#[test]
fn bounds_reach_three_times_the_range() {
    for (edition, most) in [(1, 1_048_576), (2, 1_048_576), (3, 2_097_152)] {
        let ends = [[-most; 3], [most; 3], [most; 3]].concat();
        let list = bounds(edition, &body(&ends, &ends)).unwrap();
        assert_eq!(list, [[-most; 3], [3 * most; 3]].concat());
        let mut beyond = ends.clone();
        beyond[8] += 1;
        let refused = |body: Body| number(bounds(edition, &body));
        assert_eq!([refused(body(&beyond, &ends)), refused(body(&ends, &beyond))], [3, 3]);
    }
}

#[test]
fn a_block_for_every_32_triangles() {
    let row = row_of_s();
    assert_eq!(listed(&row, &row), [0, 0, 0, 9500, 0, 50, 9600, 0, 0, 9800, 0, 50]);
    let of = |count: usize| listed(&S.repeat(count), &S.repeat(count));
    for (count, blocks) in [(1, 1), (31, 1), (32, 1), (33, 2), (64, 2), (65, 3), (256, 8)] {
        assert_eq!(of(count), BOUND_OF_S.repeat(blocks), "{count}");
    }
}

#[test]
fn bounds_are_refused_in_order_and_keep_what_stands_behind() {
    let write = |edition: u8, body: Body, lent: usize| {
        let mut list = vec![7; lent];
        let written = number(write_bounds(edition, &body, &mut list));
        let kept = if written == 0 { 6 } else { 0 };
        assert_eq!(list[kept..], vec![7; lent - kept]);
        written
    };
    let far = [2_097_153; 9];
    let sound = body(&S, &S);
    assert_eq!([0, 5, 6, 7, 12].map(|lent| write(2, sound, lent)), [14, 14, 0, 0, 0]);
    assert_eq!([0, 4, 129, 255].map(|edition| write(edition, body(&S, &[]), 5)), [10; 4]);
    assert_eq!(write(3, body(&far, &S[..8]), 5), 21);
    assert_eq!(write(3, Body { count: 2, ..sound }, 6), 21);
    assert_eq!(write(3, Body { count: 0, start: &[], end: &[] }, 6), 21);
    assert_eq!(write(3, body(&S, &far), 5), 3);
}

/// Separations; tolerance 16, budget 1,000.
fn pair<'a>(a: &'a [i32], b: &'a [i32], separations: [u32; 3]) -> Bodies<'a> {
    let [a, b] = [body(a, a), body(b, b)];
    Bodies { edition: 2, a, b, separations, tolerance: 16, budget: 1_000 }
}

/// The count of a CLEAR with 4,096 words, and whether the one block is passed over.
fn walked(x: i32, separation: u32) -> (u32, bool) {
    let a = [x, 0, 0, x + 4, 0, 0, x, 3, 0];
    let bodies = pair(&a, &S, [separation, 0, 0]);
    let bound = listed(&a, &a);
    let answer = told(&answer(&bodies, [&bound, &BOUND_OF_S], 4096)).unwrap();
    assert_eq!(answer, [2, 0, 0, 0, 0, 0, answer[6], 0]);
    let passed = apart(&bound, &BOUND_OF_S, bodies.separations);
    assert_eq!(passed, apart(&BOUND_OF_S, &bound, bodies.separations));
    (answer[6], passed)
}

#[test]
fn passed_over_where_the_bounds_are_further_apart_than_the_separation() {
    assert_eq!(walked(190, 0), (23, false));
    assert_eq!(walked(200, 0), (19, false));
    assert_eq!(walked(201, 0), (15, true));
    assert_eq!(walked(201, 1), (19, false));
    assert_eq!(walked(203, 2), (15, true));
}

#[test]
fn each_axis_has_its_own_separation() {
    let at = |axis: usize, from: i32| {
        let mut bound = [0; 6];
        (bound[axis], bound[3 + axis]) = (from, from + 5);
        bound
    };
    for axis in 0..3 {
        let mut separations = [9; 3];
        separations[axis] = 2;
        let distances =
            [7, 8, -7, -8].map(|from| apart(&at(axis, from), &at(axis, 0), separations));
        assert_eq!(distances, [false, true, false, true]);
    }
    // The widest that two bounds can be apart does not fit 32 bits with the signs at their ends.
    assert!(apart(&[i32::MIN; 6], &[i32::MAX; 6], [65_536; 3]));
}

#[test]
fn an_untrue_list_is_refused_behind_what_the_queries_are_refused_for() {
    let a = [201, 0, 0, 205, 0, 0, 201, 3, 0];
    let (bodies, bound) = (pair(&a, &S, [0; 3]), listed(&a, &a));
    let walked = |bodies: &Bodies, lists: [&[i32]; 2], words: usize| {
        number(told(&answer(bodies, lists, words)))
    };
    let mut untrue = BOUND_OF_S;
    untrue[3] = 199;
    assert_eq!(walked(&bodies, [&bound, &BOUND_OF_S], 4096), 0);
    assert_eq!(walked(&bodies, [&bound, &untrue], 4096), 27);
    assert_eq!(walked(&bodies, [&bound, &untrue], 1), 7);
    let none = Body { count: 0, ..bodies.a };
    assert_eq!(walked(&Bodies { a: none, ..bodies }, [&bound, &untrue], 4096), 21);
    assert_eq!(walked(&Bodies { edition: 4, ..bodies }, [&bound, &untrue], 4096), 10);
    assert_eq!(walked(&Bodies { budget: 0, ..bodies }, [&bound, &untrue], 4096), 6);
    for place in 0..6 {
        for by in [-1, 1] {
            let mut list = BOUND_OF_S;
            list[place] += by;
            assert_eq!(walked(&bodies, [&bound, &list], 4096), 27);
            let mut list = bound.clone();
            list[place] += by;
            assert_eq!(walked(&bodies, [&list, &BOUND_OF_S], 4096), 27);
        }
    }
    let twice = BOUND_OF_S.repeat(2);
    for length in [0, 1, 5, 7, 11, 12] {
        assert_eq!(walked(&bodies, [&bound, &twice[..length]], 4096), 27);
    }
}

fn kept(start: &[i32], bounds: &[i32]) -> Kept {
    let [start, end] = [start, start].map(<[i32]>::to_vec);
    Kept { count: start.len() / NUMBERS, start, end, bounds: bounds.to_vec() }
}

/// What replacing gives; nothing is changed where it is refused.
fn replaced(kept: &Kept, edition: u8, n: usize, corners: &[i32]) -> (u32, Kept) {
    let mut after = kept.clone();
    let number = number(after.replace(edition, n, corners));
    assert!(number == 0 || after == *kept);
    (number, after)
}

#[test]
fn only_the_block_of_a_replaced_triangle_is_worked_out_again() {
    let row = row_of_s();
    let corners = [moved(S, 1, 9999), S].concat();
    let before = kept(&row, &listed(&row, &row));
    let (number, after) = replaced(&before, 2, 32, &corners);
    assert_eq!(number, 0);
    assert_eq!(after.bounds, [0, 0, 0, 9500, 0, 50, 0, 0, 0, 200, 9999, 50]);
    assert_eq!(after.bounds, bounds(2, &after.body()).unwrap());
    assert_eq!([&after.start[288..], &after.end[288..]].concat(), corners);
    assert_eq!((&after.start[..288], &after.end[..288]), (&row[..288], &row[..288]));
    // An untrue entry of another block stays as it was, and one of its own does not.
    let untrue = Kept { bounds: (1..=12).collect(), ..before };
    let (_, after) = replaced(&untrue, 2, 32, &corners);
    assert_eq!(after.bounds, [1, 2, 3, 4, 5, 6, 0, 0, 0, 200, 9999, 50]);
}

#[test]
fn replacing_is_refused_in_order() {
    let twice = |triangle: [i32; 9]| [triangle, triangle].concat();
    let mut far = twice(S);
    far[17] = 1_048_577;
    let of_s = kept(&S, &BOUND_OF_S);
    let short = kept(&S, &BOUND_OF_S[..5]);
    let number = |kept: &Kept, n: usize, corners: &[i32]| replaced(kept, 2, n, corners).0;
    assert_eq!(number(&of_s, 1, &far), 13);
    assert_eq!(number(&short, 0, &far), 3);
    assert_eq!(number(&short, 0, &twice(S)), 27);
    assert_eq!(number(&of_s, 0, &twice(T)), 0);
    assert_eq!(replaced(&of_s, 3, 0, &far).0, 0);
    for length in [0, 9, 17] {
        assert_eq!(number(&short, 1, &far[..length]), 21);
    }
    assert_eq!(number(&of_s, 0, &[twice(S), vec![0]].concat()), 21);
    let longer = Kept { end: T.repeat(2), ..of_s.clone() };
    assert_eq!(number(&longer, 5, &far), 21);
    for edition in [0, 4, 129, 255] {
        assert_eq!(replaced(&longer, edition, 5, &far).0, 10);
    }
    for n in [1, 255, 1 << 32, usize::MAX] {
        assert_eq!(number(&of_s, n, &twice(S)), 13);
    }
}

#[test]
fn coordinates_of_the_others_of_its_block_alone_refuse() {
    let row = row_of_s();
    let list = listed(&row, &row);
    let corners = [S, S].concat();
    // A triangle that is beyond the range at one end, and the one that goes.
    let number = |bad: usize, n: usize| {
        let mut both = [kept(&row, &list), kept(&row, &list)];
        both[0].start[NUMBERS * bad + 4] = 1_048_577;
        both[1].end[NUMBERS * bad + 8] = -1_048_577;
        both.map(|kept| replaced(&kept, 2, n, &corners).0)
    };
    assert_eq!(number(0, 0), [0, 0]);
    assert_eq!(number(0, 1), [3, 3]);
    assert_eq!(number(31, 0), [3, 3]);
    assert_eq!(number(32, 0), [0, 0]);
    assert_eq!(number(32, 32), [0, 0]);
    assert_eq!(number(31, 32), [0, 0]);
}
