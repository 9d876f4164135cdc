//! The walk with caps: worked rows, told as word, t, triangles of A and B, query, excess, count.

use second::bodies::{answer, told, Bodies, Body, NUMBERS};

const T: [i32; 9] = [-100, -100, 0, 300, -100, 0, -100, 300, 0];
const WORDS: [&str; 6] = ["REFUSED", "MET", "CLEAR", "SPENT", "ROOM", "FLOOR"];

/// Positions of a body at the start and at the end.
type Positions = [Vec<i32>; 2];

/// What all queries share.
struct Terms {
    edition: u8,
    separations: [u32; 3],
    tolerance: u32,
    budget: u32,
    words: usize,
}

const USUAL: Terms =
    Terms { edition: 2, separations: [0; 3], tolerance: 999, budget: 1_000, words: 4_096 };

fn row(a: &Positions, b: &Positions, terms: &Terms) -> String {
    let [a, b] = [a, b].map(|[start, end]| Body { count: start.len() / NUMBERS, start, end });
    let Terms { edition, separations, tolerance, budget, words } = *terms;
    let bodies = Bodies { edition, a, b, separations, tolerance, budget };
    let [word, t, a, b, query, excess, low, high] = told(&answer(&bodies, words)).unwrap();
    assert_eq!(high, 0);
    format!("{} {t} {a} {b} {query} {excess} {low}", WORDS[word as usize])
}

/// A triangle that falls 2,000 in z from 1,000, so much lower.
fn falling(lower: i32) -> Positions {
    [1000, -1000].map(|z| {
        let z = z - lower;
        vec![0, 0, z, 50, 0, z, 0, 50, z]
    })
}

fn still(corners: &[i32]) -> Positions {
    [corners.to_vec(), corners.to_vec()]
}

/// The triangles of one body, then those of another.
fn both(one: Positions, other: Positions) -> Positions {
    let [[start, end], [then_start, then_end]] = [one, other];
    [[start, then_start].concat(), [end, then_end].concat()]
}

#[test]
fn each_query_is_asked_up_to_the_least_time_so_far() {
    for edition in [1, 2, 3] {
        let with = |terms: Terms| row(&falling(0), &still(&T), &Terms { edition, ..terms });
        assert_eq!(with(USUAL), "MET 262144 0 0 1 500 34");
        assert_eq!(with(Terms { tolerance: 100, ..USUAL }), "MET 491520 0 0 1 100 113");
    }
    let lower = both(falling(0), falling(600));
    let close = Terms { tolerance: 100, ..USUAL };
    assert_eq!(row(&lower, &still(&T), &close), "MET 196608 1 0 1 100 196");
}

#[test]
fn time_of_0_ends_the_walk() {
    let high = Terms { separations: [0, 0, 500], ..USUAL };
    assert_eq!(row(&falling(0), &still(&T), &high), "MET 0 0 0 1 500 4");
    let mut moved = T;
    moved.iter_mut().step_by(3).for_each(|x| *x += 5_000);
    let second = both(still(&moved), still(&T));
    assert_eq!(row(&falling(0), &second, &high), "MET 0 0 1 1 500 19");
    let poor = Terms { budget: 1, ..USUAL };
    assert_eq!(row(&falling(0), &still(&T), &poor), "SPENT 0 0 0 1 1000 1");
}

// More budget may bring an earlier time, or more checks: R-5 is of a search and not of the walk.
#[test]
fn more_budget_may_make_the_walk_earlier() {
    let a = [
        vec![190, 101, 288, 142, 246, 291, 5, 225, 199],
        vec![-16, -207, -238, -64, -62, -235, -201, -83, -327],
    ];
    let b = still(&[-4, 43, -58, -54, -96, 66, 41, 94, -72]);
    let few =
        |budget: u32| Terms { separations: [25, 10, 0], tolerance: 16, budget, words: 6, ..USUAL };
    assert_eq!(row(&a, &b, &few(5)), "SPENT 262144 0 0 2 218 60");
    assert_eq!(row(&a, &b, &few(10)), "ROOM 0 0 0 2 349 12");
    let a = [
        vec![698, 3216, 1842, -254, 4052, 2606, -710, 3656, 887],
        vec![870, -4082, -1388, -82, -3246, -624, -538, -3642, -2343],
    ];
    let b = [
        vec![814, 806, 395, -582, -264, -49, 651, -79, 496],
        vec![1302, 502, 407, -852, -434, 263, 757, 57, 872],
    ];
    let enough = |budget: u32| Terms { separations: [100, 0, 0], tolerance: 16, budget, ..USUAL };
    assert_eq!(row(&a, &b, &enough(20)), "SPENT 327680 0 0 1 434 112");
    assert_eq!(row(&a, &b, &enough(25)), "SPENT 262144 0 0 13 882 171");
}
