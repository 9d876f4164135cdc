//! What two bodies are refused for, and in which order.

use super::*;

/// The refusal's number, 0 for none.
fn number(bodies: &Bodies, words: usize) -> u32 {
    refusal(bodies, words).map_or(0, Refusal::number)
}

#[test]
fn counts_and_lengths_that_are_no_body() {
    let positions = named_bodies(2, 3);
    let sound = bodies(&positions);
    assert_eq!(number(&sound, 4096), 0);
    for count in [0, 1, 3, 257, 1 << 63, usize::MAX, usize::MAX / NUMBERS + 1] {
        assert_eq!(number(&Bodies { a: Body { count, ..sound.a }, ..sound }, 4096), 21);
    }
    for count in [0, 2, 4, 257, 1 << 32, usize::MAX] {
        assert_eq!(number(&Bodies { b: Body { count, ..sound.b }, ..sound }, 4096), 21);
    }
    let longer = [vec![0; 19], vec![0; 28]];
    for (of_a, of_b) in [(&positions[0][0][..17], &positions[1][0][..26]), (&longer[0], &longer[1])]
    {
        let (a, b) = (sound.a, sound.b);
        assert_eq!(number(&Bodies { a: Body { start: of_a, ..a }, ..sound }, 4096), 21);
        assert_eq!(number(&Bodies { a: Body { end: of_a, ..a }, ..sound }, 4096), 21);
        assert_eq!(number(&Bodies { b: Body { start: of_b, ..b }, ..sound }, 4096), 21);
        assert_eq!(number(&Bodies { b: Body { end: of_b, ..b }, ..sound }, 4096), 21);
    }
    let nothing = Body { count: 0, start: &[], end: &[] };
    assert_eq!(number(&Bodies { a: nothing, ..sound }, 4096), 21);
}

#[test]
fn as_many_triangles_as_a_body_may_have() {
    let positions = [256, 257].map(|count| [vec![0; 9 * count], vec![0; 9 * count]]);
    let [most, beyond] = [body(&positions[0]), body(&positions[1])];
    let one = [named_body(1, 1), named_body(2, 1)];
    let sound = bodies(&one);
    assert_eq!(number(&Bodies { a: most, ..sound }, 2), 0);
    assert_eq!(number(&Bodies { b: most, ..sound }, 2), 0);
    assert_eq!(number(&Bodies { a: beyond, ..sound }, 2), 21);
    assert_eq!(number(&Bodies { b: beyond, ..sound }, 2), 21);
}

#[test]
fn numbers_that_all_queries_share() {
    let positions = named_bodies(2, 3);
    let sound = bodies(&positions);
    for axis in 0..3 {
        let mut separations = [65_536; 3];
        assert_eq!(number(&Bodies { separations, ..sound }, 2), 0);
        separations[axis] += 1;
        assert_eq!(number(&Bodies { separations, tolerance: 15, ..sound }, 0), 4);
    }
    assert_eq!(number(&Bodies { tolerance: 15, budget: 0, ..sound }, 0), 5);
    assert_eq!(number(&Bodies { budget: 1_000_001, ..sound }, 0), 6);
    for words in [0, 1, 1_048_577] {
        assert_eq!(number(&sound, words), 7);
    }
    let short = Body { start: &sound.a.start[1..], ..sound.a };
    assert_eq!(number(&Bodies { a: short, tolerance: 15, ..sound }, 0), 21);
}

#[test]
fn first_refused_query_decides() {
    // Places of A and of B that the first query has: corner 1 of A's first triangle, all of B's first.
    for (side, place) in [(0, 0), (0, 2), (0, 3), (0, 8), (0, 17), (1, 0), (1, 8), (1, 9), (1, 26)]
    {
        for end in 0..2 {
            let mut positions = named_bodies(2, 3);
            positions[side][end][place] = if place % 2 == 0 { 1_048_577 } else { -1_048_577 };
            let far = bodies(&positions);
            let in_first = if side == 0 { place < 3 } else { place < 9 };
            assert_eq!(number(&far, 4096), 3);
            assert_eq!(
                number(&Bodies { tolerance: 15, ..far }, 4096),
                if in_first { 3 } else { 5 }
            );
            assert_eq!(number(&far, 1), if in_first { 3 } else { 7 });
        }
    }
}

#[test]
fn edition_comes_first() {
    let positions = named_bodies(2, 3);
    let sound = bodies(&positions);
    let nothing = Body { count: 0, start: &[], end: &[] };
    for edition in 0..=255 {
        let is_one = (1..=3).contains(&edition);
        let asked = Bodies { edition, tolerance: 64, ..sound };
        assert_eq!(number(&asked, 4096), if is_one { 0 } else { 10 });
        let no_body = Bodies { a: nothing, tolerance: 0, ..asked };
        assert_eq!(number(&no_body, 0), if is_one { 21 } else { 10 });
    }
}

#[test]
fn range_is_that_of_the_edition() {
    let mut positions = named_bodies(2, 3);
    let asked = |positions: &[[Vec<i32>; 2]; 2], edition, tolerance| {
        number(&Bodies { edition, tolerance, ..bodies(positions) }, 4096)
    };
    for edition in [1, 2] {
        assert_eq!([15, 16, 63].map(|least| asked(&positions, edition, least)), [5, 0, 0]);
    }
    assert_eq!([16, 63, 64].map(|least| asked(&positions, 3, least)), [5, 5, 0]);
    for (coordinate, must) in [
        (1_048_576, [0, 0, 0]),
        (1_048_577, [3, 3, 0]),
        (2_097_152, [3, 3, 0]),
        (2_097_153, [3; 3]),
    ] {
        for coordinate in [coordinate, -coordinate] {
            positions[1][1][26] = coordinate;
            assert_eq!([1, 2, 3].map(|edition| asked(&positions, edition, 64)), must);
        }
    }
}
