//! The search up to a cap: worked rows, and what holds for every record.

use crate::common::*;
use crate::{at, capped, first};
use second::edition::Range;
use second::gap::{Motion, Q};
use second::record::Record;
use second::refusals::{Refusal, MOST_BUDGET, MOST_CAP, MOST_WORDS};
use second::rng::Rng;
use second::search::{search, search_traced, Answer, Corner};

#[test]
fn first_case_up_to_a_cap() {
    for cap in [0, 1048576, 524288] {
        assert_eq!(ask(first(cap)), met([262144, 0, 0, 500, 5]));
    }
    assert_eq!(ask(first(524287)), met([262144, 0, 0, 500, 4]));
    assert_eq!(ask(first(262144)), met([262144, 0, 0, 500, 4]));
    assert_eq!(ask(first(262143)), clear(3));
    assert_eq!(ask(first(1)), clear(3));
}

#[test]
fn dropped_halves_count_neither_for_room_nor_for_the_budget() {
    assert_eq!(ask_with(first(0), 7), room([0, 0, 0, 1000, 3]));
    assert_eq!(ask_with(first(524288), 7), met([262144, 0, 0, 500, 5]));
    assert_eq!(ask(Record { budget: 4, ..first(0) }), spent([0, 0, 0, 1000, 4]));
    assert_eq!(ask(Record { budget: 4, ..first(524287) }), met([262144, 0, 0, 500, 4]));
}

#[test]
fn close_case_up_to_a_cap() {
    let close = |cap: u32| ask(Record { tolerance: 16, ..first(cap) });
    assert_eq!(close(0), met([516096, 229376, 229376, 16, 165]));
    assert_eq!(close(524288), met([516096, 229376, 229376, 16, 150]));
    assert_eq!(close(500000), clear(46));
}

#[test]
fn odd_caps_of_edition_3() {
    let case = |cap: u32| ask3(Record { tolerance: 100, ..first(cap) });
    assert_eq!(case(500001), met([491520, 0, 0, 100, 23]));
    // Boxes begin at even parts: an odd cap is as good as the even one before it.
    for (record, range) in files("cap3", 20).iter().flat_map(|file| ranged(file)) {
        let even = Record { cap: record.cap & !1, ..record };
        if record.cap % 2 == 1 && (2..=MOST_CAP).contains(&even.cap) && record.cap <= MOST_CAP {
            assert_eq!(search(&record, range, 64), search(&even, range, 64));
        }
    }
}

#[test]
fn first_refusal_in_order() {
    let number = |record: Record, words: usize| match ask_with(record, words) {
        Answer::Refused(refusal) => refusal.number(),
        other => panic!("{other:?}"),
    };
    assert_eq!(number(first(1048577), 4096), 22);
    assert_eq!(number(Record { budget: 0, ..first(1048577) }, 4096), 6);
    assert_eq!(number(first(1048577), 1), 22);
    assert_eq!(number(first(1048576), 1), 7);
    assert_eq!(ask3(first(1048577)), Answer::Refused(Refusal::Cap));
}

/// Records of editions 2 and 3 of every shape, with their ranges.
fn shapes(seeds: u64) -> Vec<(Record, Range)> {
    let names = ["tiny2", "full2", "degenerate2", "extreme2", "tiny3", "full3", "extreme3"];
    let files = names.into_iter().flat_map(|name| files(name, seeds));
    files.flat_map(|file| ranged(&file)).collect()
}

#[test]
fn cap_of_the_whole_step_is_none() {
    for (record, range) in shapes(4) {
        for words in [4, 64, 4096] {
            let whole = Record { cap: MOST_CAP, ..record };
            assert_eq!(search(&whole, range, words), search(&record, range, words));
        }
    }
}

/// What a record has with all room and budget, if it has that soon.
fn unhurried(record: &Record, range: Range) -> Option<Answer> {
    let soon = search(&Record { budget: 3_000, ..*record }, range, MOST_WORDS);
    let patient = Record { budget: MOST_BUDGET, ..*record };
    let is_done = matches!(soon, Answer::Met(_) | Answer::Clear { .. });
    is_done.then(|| search(&patient, range, MOST_WORDS))
}

#[test]
fn answer_of_the_whole_step_where_it_comes_up_to_the_cap_and_else_clear() {
    let mut rng = Rng::new(7, "up to a cap");
    let (mut same, mut cleared) = (0, 0);
    for (record, range) in shapes(6) {
        let Some(whole) = unhurried(&record, range) else { continue };
        let answered = whole.corner().map_or(MOST_CAP, |corner| corner.t);
        let any = 1 + rng.below(MOST_CAP as usize) as u32;
        for cap in [answered, answered.saturating_sub(1), answered / 2, any] {
            let capped = Record { cap, ..record };
            let Some(answer) = unhurried(&capped, range) else { panic!("{capped:?}") };
            assert!(answer.count() <= whole.count());
            match whole.corner() {
                Some(corner) if cap == 0 || corner.t <= cap => {
                    let count = answer.count();
                    assert_eq!(answer, Answer::Met(Corner { count, ..*corner }), "{capped:?}");
                    same += 1;
                }
                _ => {
                    assert!(matches!(answer, Answer::Clear { .. }), "{capped:?}");
                    cleared += usize::from(whole.corner().is_some());
                }
            }
        }
    }
    assert!(same > 100 && cleared > 100, "{same} {cleared}");
}

#[test]
fn low_half_is_never_dropped_so_that_no_level_is_empty() {
    let files = ["cap2", "cap3", "cap-queue2"].into_iter().flat_map(|name| files(name, 10));
    for (record, range) in files.flat_map(|file| ranged(&file)) {
        let (answer, trace) = search_traced(&record, range, 4096);
        if matches!(answer, Answer::Clear { .. }) {
            assert!(!trace.log.last().unwrap().checked.is_empty());
        }
        let low = |depth: u32, t: u32| t * (MOST_CAP >> depth);
        for level in trace.log.iter().filter(|_| record.cap != 0) {
            let mut checked = level.checked.iter();
            assert!(checked.all(|one| low(level.depths[0], one.grid_box[0]) <= record.cap));
        }
    }
}

#[test]
fn clear_means_no_contact_up_to_and_including_the_cap() {
    let mut rng = Rng::new(7, "clear up to a cap");
    let mut cleared = 0;
    for (record, range) in capped() {
        if !matches!(search(&record, range, 4096), Answer::Clear { .. }) {
            continue;
        }
        cleared += 1;
        let motion = Motion::of(&record);
        for _ in 0..50 {
            let last = if record.cap == 0 { MOST_CAP } else { record.cap };
            let any = rng.below(last as usize + 1) as u32;
            let t = rng.pick(&[any, last]);
            let f = motion.f(at(&mut rng, record.kind, t).map(i128::from));
            let apart = |axis: usize| f[axis].abs() > i128::from(record.separations[axis]) * Q * Q;
            assert!((0..3).any(apart), "{record:?}");
        }
    }
    assert!(cleared > 50, "{cleared}");
}
