//! Why a moment up to the cap was safe, and that none beyond it is asked about.

use crate::common::*;
use crate::{at, capped, first};
use second::edition::Range;
use second::record::Record;
use second::refusals::Refusal;
use second::rng::Rng;
use second::search::Answer;
use second::why::{Parts, Searched, ONE};

fn searched(record: &Record, range: Range) -> Searched {
    Searched::of(record, range, 4096).unwrap()
}

#[test]
fn every_moment_up_to_the_cap_of_a_clear_one() {
    let rows = [
        ([0, 0, 0], "level 2 depths 2 0 0 box 0 0 0 axis z side +"),
        ([262143, 0, 0], "level 2 depths 2 0 0 box 0 0 0 axis z side +"),
        ([262144, 0, 0], "REFUSED 23"),
    ];
    check_rows(&searched(&first(262143), Range::SHORTER), clear(3), &rows);
    let rows = [
        ([262143, 0, 0], "level 2 depths 2 0 0 box 0 0 0 axis z side +"),
        ([262144, 0, 0], "level 3 depths 3 0 0 box 2 0 0 axis z side +"),
        ([262145, 0, 0], "REFUSED 23"),
    ];
    let closer = Record { tolerance: 100, ..first(262144) };
    check_rows(&searched(&closer, Range::SHORTER), clear(5), &rows);
}

#[test]
fn beyond_the_cap_is_outside_before_it_is_late() {
    let rows = [
        ([262143, 0, 0], "level 2 depths 2 0 0 box 0 0 0 axis z side +"),
        ([262144, 0, 0], "REFUSED 24"),
        ([300000, 0, 0], "REFUSED 24"),
        ([300001, 0, 0], "REFUSED 23"),
        ([1048576, 0, 0], "REFUSED 23"),
    ];
    check_rows(&searched(&first(300000), Range::SHORTER), met([262144, 0, 0, 500, 4]), &rows);
    // An odd cap is the last moment in edition 3 too, where no box begins at it.
    let rows = [([300001, 1, 0], "REFUSED 24"), ([300002, 0, 1], "REFUSED 23")];
    check_rows(&searched(&first(300001), Range::LONGER), met([262144, 0, 0, 500, 4]), &rows);
}

#[test]
fn cap_of_the_whole_step_leaves_the_whole_step() {
    let still = falls([150, 150, 0], [150, 150, 0], T);
    for cap in [0, ONE] {
        let rows = [
            ([1048576, 1048576, 0], "level 2 depths 0 1 1 box 0 1 0 axis y side +"),
            ([1048577, 0, 0], "REFUSED 23"),
        ];
        check_rows(&searched(&Record { cap, ..still }, Range::SHORTER), clear(10), &rows);
    }
}

#[test]
fn refused_before_the_search() {
    let number = |cap: u32, words: usize, point: Parts, lent: usize| {
        let searched = Searched::of(&first(cap), Range::SHORTER, words);
        let told = searched.and_then(|searched| searched.tell(point, lent));
        told.map_or_else(Refusal::number, |_| 0)
    };
    let beyond = [262145, 0, 0];
    assert_eq!(number(1048577, 1, beyond, 0), 22);
    assert_eq!(number(262144, 1, beyond, 0), 7);
    assert_eq!(number(262144, 4096, beyond, 0), 23);
    assert_eq!(number(262144, 4096, [262144, 0, 0], 8), 14);
    assert_eq!(number(262144, 4096, [262144, 0, 0], 9), 24);
    assert_eq!(number(0, 1, [1048577, 0, 0], 9), 7);
    assert_eq!(number(0, 4096, [u32::MAX, 1, 0], 9), 23);
}

#[test]
fn every_point_up_to_the_cap_of_a_clear_one_has_its_box() {
    let mut rng = Rng::new(7, "why up to a cap");
    let mut named = 0;
    for (record, range) in capped() {
        let Ok(searched) = Searched::of(&record, range, 4096) else { continue };
        if !matches!(searched.answer, Answer::Clear { .. }) || record.cap == 0 {
            continue;
        }
        let any = rng.below(record.cap as usize + 1) as u32;
        for t in [0, any, record.cap - 1, record.cap] {
            assert!(searched.why(at(&mut rng, record.kind, t)).is_ok(), "{record:?}");
            named += 1;
        }
        let beyond = at(&mut rng, record.kind, record.cap + 1);
        assert_eq!(searched.why(beyond), Err(Refusal::Outside));
    }
    assert!(named > 200, "{named}");
}
