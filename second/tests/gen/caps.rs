//! The flavours with caps, of files and of bodies whose walks caps make shorter.

use crate::common::{files, ranged, records};
use second::bodies::{walk, BodiesAnswer, Least};
use second::edition::{Edition, Range};
use second::file::open;
use second::gen::bodies::{self, Drawn};
use second::gen::{flavours, words::words};
use second::record::Record;
use second::refusals::{check_record, Refusal, MOST_CAP};
use second::search::{search, Answer};

const SEEDS: u64 = 20;
/// Bodies are cheaper.
const BODIES: u64 = 30;

/// Every record of a flavour, with its range.
fn drawn(flavour: &str) -> Vec<(Record, Range)> {
    files(flavour, SEEDS).iter().flat_map(|file| ranged(file)).collect()
}

/// The same record for the whole step.
fn whole(record: &Record) -> Record {
    Record { cap: 0, ..*record }
}

/// How many of a flavour's records are so.
fn how_many(flavour: &str, is_so: impl Fn(&Record, Range) -> bool) -> usize {
    drawn(flavour).iter().filter(|(record, range)| is_so(record, *range)).count()
}

#[test]
fn made_in_the_editions_that_have_caps() {
    let mut capped = flavours();
    capped.retain(|name| name.starts_with("cap"));
    assert_eq!(capped.len(), 6);
    for flavour in capped {
        let edition = if flavour.ends_with('2') { Edition::Two } else { Edition::Three };
        for file in files(flavour, 8) {
            let opened = open(&file).unwrap();
            assert_eq!(opened.edition, edition);
            assert!((10..=40).contains(&opened.count), "{flavour}");
        }
    }
    for flavour in ["tiny2", "full3", "budget2", "queue3", "deep3", "tiny"] {
        assert!(files(flavour, 8).iter().all(|file| records(file).iter().all(|r| r.cap == 0)));
    }
}

#[test]
fn caps_stand_at_before_and_behind_the_answered_moment() {
    for flavour in ["cap2", "cap3"] {
        for off in [-1, 0, 1] {
            let there = |record: &Record, range: Range| {
                let answer = search(&whole(record), range, 4096);
                let t = answer.corner().map_or(0, |corner| i64::from(corner.t));
                t > 0 && i64::from(record.cap) == t + off
            };
            assert!(how_many(flavour, there) >= 10, "{flavour} {off}");
        }
        // A grid line far from depth 20, or one part beside it.
        let near_a_line = |off: u32| {
            how_many(flavour, |record, _| {
                let line = record.cap.wrapping_sub(off);
                line > 0 && line < MOST_CAP && line.trailing_zeros() > 8
            })
        };
        assert!([0, 1, u32::MAX].iter().all(|off| near_a_line(*off) >= 50), "{flavour}");
    }
}

#[test]
fn caps_stand_at_the_ends_of_their_range_and_beyond() {
    for flavour in ["cap2", "cap3"] {
        for cap in [1, 2, MOST_CAP - 1, MOST_CAP, MOST_CAP + 1] {
            assert!(how_many(flavour, |record, _| record.cap == cap) >= 3, "{flavour} {cap}");
        }
        assert!(how_many(flavour, |record, _| record.cap > MOST_CAP + 1) >= 3, "{flavour}");
        let odd = |record: &Record, _| record.cap % 2 == 1 && record.cap < MOST_CAP;
        assert!(how_many(flavour, odd) >= 100, "{flavour}");
    }
}

#[test]
fn caps_decide_by_a_part() {
    for flavour in ["cap2", "cap3"] {
        let answer = |record: &Record, range: Range| search(record, range, 4096);
        let otherwise = |record: &Record, range| {
            record.cap <= MOST_CAP && answer(record, range) != answer(&whole(record), range)
        };
        assert!(how_many(flavour, otherwise) >= 100, "{flavour}");
        let by_a_part = |record: &Record, range| {
            let less = Record { cap: record.cap.saturating_sub(1), ..*record };
            (2..=MOST_CAP).contains(&record.cap) && answer(record, range) != answer(&less, range)
        };
        assert!(how_many(flavour, by_a_part) >= 50, "{flavour}");
    }
}

#[test]
fn budgets_of_capped_searches_stand_on_both_sides_of_an_answer() {
    for flavour in ["cap-budget2", "cap-budget3"] {
        let spent =
            |record: &Record, range| matches!(search(record, range, 4096), Answer::Spent(_));
        let turns = how_many(flavour, |record, range| {
            let more = Record { budget: record.budget + 1, ..*record };
            spent(record, range) && !spent(&more, range)
        });
        let saved = how_many(flavour, |record, range| {
            record.cap <= MOST_CAP && !spent(record, range) && spent(&whole(record), range)
        });
        assert!(turns >= 50 && saved >= 20, "{flavour} {turns} {saved}");
    }
}

#[test]
fn room_vanishes_with_a_cap_at_a_length_that_is_tried() {
    let is_room = |answer: Answer| matches!(answer, Answer::Room(_));
    for flavour in ["cap-queue2", "cap-queue3"] {
        let vanishes = |seed: &u64| {
            let lengths = words(*seed, flavour).unwrap();
            let file = second::gen::generate(*seed, flavour).unwrap();
            ranged(&file).iter().filter(|(record, _)| record.cap != 0).any(|(record, range)| {
                let differs = |words: &usize| {
                    is_room(search(&whole(record), *range, *words))
                        && !is_room(search(record, *range, *words))
                };
                lengths.iter().filter(|words| (2..=4096).contains(*words)).any(differs)
            })
        };
        assert!((0..20).filter(vanishes).count() >= 15, "{flavour}");
    }
}

#[test]
fn refusal_22_stands_alone_and_with_each_other() {
    let number =
        |record: &Record, range| check_record(record, range).map_or_else(Refusal::number, |()| 0);
    for flavour in ["refusals2", "refusals3"] {
        let alone = |record: &Record, range| number(record, range) == 22;
        assert!(how_many(flavour, alone) >= 20, "{flavour}");
        for other in 1..=6 {
            let both =
                |record: &Record, range| record.cap > MOST_CAP && number(record, range) == other;
            assert!(how_many(flavour, both) >= 3, "{flavour} {other}");
        }
    }
    assert_eq!(how_many("refusals", |record, _| record.cap != 0), 0);
}

/// What the queries of a walk are answered, and what the walk comes to.
fn walked(drawn: &Drawn) -> (Vec<Answer>, BodiesAnswer) {
    let mut answers = Vec::new();
    let answer = walk(drawn.bodies().queries(), |record| {
        answers.push(search(record, Range::of(drawn.edition), 4096));
        answers[answers.len() - 1]
    });
    (answers, answer)
}

/// How many of a flavour's bodies have a walk that is so.
fn how_many_walks(
    flavour: &str,
    is_so: impl Fn(&Drawn, &[Answer], &BodiesAnswer) -> bool,
) -> usize {
    let all = (1..=BODIES).map(|seed| bodies::generate(seed, flavour).unwrap());
    let walks = all.map(|drawn| (walked(&drawn), drawn));
    walks.filter(|((answers, answer), drawn)| is_so(drawn, answers, answer)).count()
}

#[test]
fn walks_end_inside_a_pair() {
    for flavour in ["bodies-start", "bodies-start3"] {
        let inside = |drawn: &Drawn, answers: &[Answer], answer: &BodiesAnswer| {
            let all = 15 * drawn.counts[0] * drawn.counts[1];
            let BodiesAnswer::Least(Least { t: 0, query, .. }) = answer else { return false };
            answers.len() < all && *query < 15 && answers.len() > 1
        };
        assert!(how_many_walks(flavour, inside) >= 15, "{flavour}");
        // An earlier query had a later time, and so a cap was there.
        let later_before = |_: &Drawn, answers: &[Answer], answer: &BodiesAnswer| {
            let later = answers.iter().any(|one| one.corner().is_some_and(|corner| corner.t > 0));
            matches!(answer, BodiesAnswer::Least(Least { t: 0, .. })) && later
        };
        assert!(how_many_walks(flavour, later_before) >= 3, "{flavour}");
    }
}

#[test]
fn times_fall_and_come_again() {
    for flavour in ["bodies-falling", "bodies-falling3"] {
        let times = |answers: &[Answer]| -> Vec<u32> {
            answers.iter().filter_map(|one| one.corner().map(|corner| corner.t)).collect()
        };
        let falls = |_: &Drawn, answers: &[Answer], _: &BodiesAnswer| {
            times(answers).windows(2).any(|two| two[1] < two[0])
        };
        let again = |_: &Drawn, answers: &[Answer], _: &BodiesAnswer| {
            times(answers).windows(2).any(|two| two[1] == two[0])
        };
        assert!(how_many_walks(flavour, falls) >= 5, "{flavour}");
        assert!(how_many_walks(flavour, again) >= BODIES as usize / 2, "{flavour}");
    }
}
