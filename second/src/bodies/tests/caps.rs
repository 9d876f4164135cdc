//! Each query is asked up to the least time so far, and a time of 0 ends the walk.

use super::*;

/// The caps that the queries of 2 by 3 triangles are asked with, where some have these answers and the others are clear, and what the walk comes to.
fn asked(at: &[(usize, Answer)]) -> (Vec<u32>, BodiesAnswer) {
    let positions = named_bodies(2, 3);
    let mut caps = Vec::new();
    let answer = walk(bodies(&positions).queries(), |record| {
        let answer = at.iter().find(|(place, _)| *place == caps.len());
        caps.push(record.cap);
        answer.map_or(Answer::Clear { count: 1 }, |(_, answer)| *answer)
    });
    (caps, answer)
}

/// So many of each cap, one behind the other.
fn runs(of: &[(u32, usize)]) -> Vec<u32> {
    of.iter().flat_map(|(cap, times)| vec![*cap; *times]).collect()
}

#[test]
fn cap_is_the_least_time_so_far_and_none_before_the_first() {
    assert_eq!(asked(&[]).0, [0; 90]);
    assert_eq!(asked(&[(0, met(7, 5, 1))]).0, runs(&[(0, 1), (7, 89)]));
    let falling = [(10, met(7, 5, 1)), (50, met(6, 4, 1)), (88, met(1, 4, 1))];
    assert_eq!(asked(&falling).0, runs(&[(0, 11), (7, 40), (6, 38), (1, 1)]));
    let corner = Corner { t: 9, u: 1, v: 1, excess: 2, count: 4 };
    for answer in [Answer::Met, Answer::Spent, Answer::Room, Answer::Floor].map(|by| by(corner)) {
        assert_eq!(asked(&[(44, answer)]).0, runs(&[(0, 45), (9, 45)]));
    }
}

#[test]
fn equal_time_later_on_does_not_take_over_and_its_checks_count() {
    let (caps, answer) = asked(&[(20, met(7, 5, 3)), (50, met(7, 4, 100)), (89, met(7, 0, 1_000))]);
    assert_eq!(caps, runs(&[(0, 21), (7, 69)]));
    let least = Least { word: 1, t: 7, a: 0, b: 1, query: 6, excess: 5, count: 87 + 1_103 };
    assert_eq!(answer, BodiesAnswer::Least(least));
}

#[test]
fn time_of_0_ends_the_walk_inside_the_pair_with_its_query_counted() {
    for place in [0, 3, 14, 15, 52, 89] {
        // What stands behind it is never asked.
        let (caps, answer) = asked(&[(place, met(0, 5, 10)), (place + 1, met(0, 4, 1_000))]);
        assert_eq!(caps, vec![0; place + 1]);
        let [a, b, query] = [place / 45, place / 15 % 3, place % 15 + 1].map(|n| n as u32);
        let least = Least { word: 1, t: 0, a, b, query, excess: 5, count: place as u64 + 10 };
        assert_eq!(answer, BodiesAnswer::Least(least));
    }
    let (caps, answer) = asked(&[(4, met(8, 0, 2)), (20, met(0, 1, 5)), (21, met(0, 0, 7))]);
    assert_eq!(caps, runs(&[(0, 5), (8, 16)]));
    assert!(matches!(answer, BodiesAnswer::Least(Least { t: 0, query: 6, count: 26, .. })));
}

#[test]
fn no_query_is_refused_for_its_cap() {
    let positions = named_bodies(1, 1);
    let queries: Vec<Asked> = bodies(&positions).queries().collect();
    // The latest time of all is below the end of the caps' range.
    for cap in [1, (1 << 20) - 1] {
        let capped = Record { cap, ..queries[0].record };
        assert_eq!(check_record(&capped, Range::SHORTER), Ok(()));
    }
}
