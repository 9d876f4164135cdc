//! The order of the walk, what it keeps, up to which moment it asks, and what it refuses.

mod caps;
mod refused;

use super::*;

/// A corner that no other has: body, triangle and corner in x, and whether it is the end in z.
fn named(body: i32, triangle: i32, corner: i32, end: i32) -> Point {
    [100 * body + 10 * triangle + corner, 0, end]
}

/// Positions of a body at its start and its end, each corner by its name.
fn named_body(body: i32, triangles: i32) -> [Vec<i32>; 2] {
    [0, 1].map(|end| {
        let corners = (0..triangles).flat_map(|n| (1..=3).map(move |corner| (n, corner)));
        corners.flat_map(|(n, corner)| named(body, n, corner, end)).collect()
    })
}

/// Positions of A and B with so many triangles.
fn named_bodies(a: i32, b: i32) -> [[Vec<i32>; 2]; 2] {
    [named_body(1, a), named_body(2, b)]
}

fn body(positions: &[Vec<i32>; 2]) -> Body<'_> {
    let [start, end] = positions;
    Body { count: start.len() / NUMBERS, start, end }
}

/// Edition 2, separation 1, 2, 3, tolerance 16, budget 1,000.
fn bodies(positions: &[[Vec<i32>; 2]; 2]) -> Bodies<'_> {
    let [a, b] = [body(&positions[0]), body(&positions[1])];
    Bodies { edition: 2, a, b, separations: [1, 2, 3], tolerance: 16, budget: 1_000 }
}

fn met(t: u32, excess: u32, count: u32) -> Answer {
    Answer::Met(Corner { t, u: 0, v: 0, excess, count })
}

/// The walk of 2 by 3 triangles with these answers at some of its 90 queries, from 0; the others are clear, a box each.
fn walked(at: &[(usize, Answer)]) -> BodiesAnswer {
    let positions = named_bodies(2, 3);
    let mut n = 0;
    walk(bodies(&positions).queries(), |_| {
        n += 1;
        let answer = at.iter().find(|(place, _)| *place == n - 1);
        answer.map_or(Answer::Clear { count: 1 }, |(_, answer)| *answer)
    })
}

#[test]
fn fifteen_queries_of_a_pair_in_order() {
    let positions = named_bodies(2, 3);
    let asked: Vec<Asked> = bodies(&positions).queries().collect();
    // The corners by body and number: 11 is A's corner 1, 23 is B's corner 3.
    let must = [
        "1: 11 with 21 22 23",
        "1: 12 with 21 22 23",
        "1: 13 with 21 22 23",
        "1: 21 with 11 12 13",
        "1: 22 with 11 12 13",
        "1: 23 with 11 12 13",
        "2: 11 12 with 21 22",
        "2: 11 12 with 22 23",
        "2: 11 12 with 23 21",
        "2: 12 13 with 21 22",
        "2: 12 13 with 22 23",
        "2: 12 13 with 23 21",
        "2: 13 11 with 21 22",
        "2: 13 11 with 22 23",
        "2: 13 11 with 23 21",
    ];
    // Triangle 1 of A with triangle 2 of B, the last pair.
    assert_eq!(asked.len(), 75 + must.len());
    for (asked, must) in asked[75..].iter().zip(must) {
        for (end, points) in [asked.record.start, asked.record.end].iter().enumerate() {
            let name = |p: &Point| {
                let body = p[0] / 100;
                assert_eq!((p[0] / 10 % 10, p[2]), (body, end as i32));
                (10 * body + p[0] % 10).to_string()
            };
            let names = points.each_ref().map(name);
            let first = if asked.record.kind == VERTEX_FACE { 1 } else { 2 };
            let (one, other) = (names[..first].join(" "), names[first..].join(" "));
            assert_eq!(format!("{}: {one} with {other}", asked.record.kind), must);
        }
    }
}

#[test]
fn pairs_by_triangle_of_a_then_of_b_and_queries_from_one() {
    let positions = named_bodies(2, 3);
    let asked: Vec<Asked> = bodies(&positions).queries().collect();
    assert_eq!(asked.len(), 2 * 3 * 15);
    for (n, asked) in asked.iter().enumerate() {
        let must = [n / 45, n / 15 % 3, n % 15 + 1].map(|number| number as u32);
        assert_eq!([asked.a, asked.b, asked.query], must);
        let Record { flags, byte2, byte3, cap, .. } = asked.record;
        assert_eq!((flags, byte2, byte3, cap), (0, 0, 0, 0));
        let Record { separations, tolerance, budget, .. } = asked.record;
        assert_eq!((separations, tolerance, budget), ([1, 2, 3], 16, 1_000));
    }
}

#[test]
fn least_time_and_of_equal_ones_the_first() {
    let least = |at: &[(usize, Answer)]| match walked(at) {
        BodiesAnswer::Least(Least { t, a, b, query, excess, .. }) => [t, a, b, query, excess],
        other => panic!("{other:?}"),
    };
    assert_eq!(least(&[(89, met(7, 5, 1))]), [7, 1, 2, 15, 5]);
    assert_eq!(least(&[(0, met(7, 5, 1)), (50, met(6, 4, 1))]), [6, 1, 0, 6, 4]);
    assert_eq!(least(&[(20, met(7, 5, 1)), (50, met(7, 4, 1))]), [7, 0, 1, 6, 5]);
    assert_eq!(least(&[(20, met(8, 5, 1)), (50, met(7, 4, 1)), (51, met(7, 0, 9))])[4], 4);
}

#[test]
fn word_of_the_one_that_has_the_time() {
    let corner = Corner { t: 3, u: 1, v: 1, excess: 2, count: 4 };
    let answers = [Answer::Met, Answer::Spent, Answer::Room, Answer::Floor].map(|by| by(corner));
    for (answer, word) in answers.into_iter().zip([1, 3, 4, 5]) {
        match walked(&[(8, met(4, 0, 1)), (9, answer), (10, met(3, 0, 1))]) {
            BodiesAnswer::Least(least) => assert_eq!((least.word, least.query), (word, 10)),
            other => panic!("{other:?}"),
        }
    }
}

#[test]
fn sum_of_all_counts_in_64_bits() {
    assert_eq!(walked(&[]), BodiesAnswer::Clear { count: 90 });
    let all = |answer: Answer| walked(&(0..90).map(|n| (n, answer)).collect::<Vec<_>>());
    let most = Answer::Clear { count: 1_000_000_000 };
    assert_eq!(all(most), BodiesAnswer::Clear { count: 90_000_000_000 });
    assert_eq!(told(&all(most)), Ok([2, 0, 0, 0, 0, 0, 4_100_654_080, 20]));
    assert_eq!(told(&walked(&[(44, met(9, 8, 11))])), Ok([1, 9, 0, 2, 15, 8, 100, 0]));
    let numbers = told(&all(met(9, 8, 1_000_000_000))).unwrap();
    assert_eq!(numbers, [1, 9, 0, 0, 1, 8, 4_100_654_080, 20]);
}

#[test]
fn contact_is_found_by_the_search_itself() {
    // A falls onto B, corner 1 first: by the berth examples' first case, met at a quarter.
    let a = [vec![0, 0, 1000, 0, 0, 4000, 0, 0, 5000], vec![0, 0, -1000, 0, 0, 4000, 0, 0, 5000]];
    let still = [[-100, -100, 0, 300, -100, 0, -100, 300, 0]; 2];
    let b = still.map(Vec::from);
    let positions = [a, b];
    let asked = Bodies { separations: [0; 3], tolerance: 999, ..bodies(&positions) };
    match answer(&asked, 4096) {
        BodiesAnswer::Least(least) => {
            assert_eq!((least.word, least.a, least.b), (1, 0, 0));
            assert_eq!((least.t, least.query, least.excess), (262144, 1, 500));
            assert!(least.count > 15);
        }
        other => panic!("{other:?}"),
    }
    let apart = Bodies { b: body(&positions[0]), a: body(&positions[1]), ..asked };
    assert!(matches!(answer(&apart, 4096), BodiesAnswer::Least(Least { query: 4, .. })));
    assert!(matches!(
        answer(&Bodies { budget: 4, ..asked }, 4096),
        BodiesAnswer::Least(Least { word: 3, .. })
    ));
}

#[test]
fn times_of_edition_3_are_even_parts_of_the_same_step() {
    // The row at which t is split 19 times, as corner 1 of A with face B.
    let p = [vec![2097152, 63670, -187960], vec![-2097152, 65348, -1387294]];
    let a = p.map(|corner| corner.repeat(3));
    let b = [
        vec![2097152, -37, 2097151, -2097152, 2097152, -2097152, -2097152, -2097152, -2097152],
        vec![-2097152, 0, 2094236, 2097152, 2097115, -2097151, 2097152, -2097151, -2097152],
    ];
    let positions = [a, b];
    let asked = Bodies { edition: 3, separations: [0, 0, 2], tolerance: 64, ..bodies(&positions) };
    match answer(&Bodies { budget: 6_000, ..asked }, 4096) {
        BodiesAnswer::Least(Least { word, t, query, excess, .. }) => {
            assert_eq!((word, t, query, excess), (1, 524286, 1, 48));
        }
        other => panic!("{other:?}"),
    }
}
