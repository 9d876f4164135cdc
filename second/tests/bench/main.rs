//! What the bench measures does what it is measured for.

mod bounds;
mod logged;

use second::bench::answering::{answers, ByHand};
use second::bench::berth::Berth;
use second::bench::bodies::corpus::Class;
use second::bench::bodies::walk::{self, Way};
use second::bench::corpus::{self, Corpus, SEED};
use second::bench::fast::Fast;
use second::bench::float::{queries, Found};
use second::bench::measure::{by_turns, median, Contestant};
use second::bench::motion::Asked;
use second::bench::plain::Plain;
use second::bench::reading::{records, ONE, TWO};
use second::bench::same::Same;
use second::bench::table;
use second::beside::{bodies, Expected};
use second::bodies::{answer, told, Bodies};
use second::edition::Edition::{self, One, Three, Two};
use second::edition::Range;
use second::file::{file_of, open};
use second::gen::{flavours, generate};
use second::record::{Record, EDGE_EDGE, VERTEX_FACE};
use second::rng::Rng;
use std::collections::BinaryHeap;

/// Code, told and queue of a search written by hand.
fn by_hand<S: ByHand>(file: &[u8], words: usize) -> (u32, Vec<u32>, Vec<u64>) {
    let count = open(file).map_or(0, |opened| opened.count as usize);
    let (mut told, mut queue) = (vec![7; 8 * count], vec![7; words]);
    let code = answers::<S>(file, &mut queue, &mut told);
    (code, told, queue)
}

/// Not one of the flavours of so many records that this would take long.
fn is_small(flavour: &&str) -> bool {
    !["many", "most"].iter().any(|large| flavour.starts_with(large))
}

/// All searches by hand are told what the second program is, and leave what it would.
fn assert_as_expected(file: &[u8], words: usize, of: &str) {
    let (code, told, queue) = by_hand::<Fast>(file, words);
    let fast = (code, told.clone(), queue.clone());
    assert!(fast == by_hand::<Plain>(file, words), "{of}");
    assert!(fast == by_hand::<Same>(file, words), "{of}");
    match Expected::of(file, words).records {
        Err(number) => assert_eq!(code, number),
        Ok(records) => assert_eq!((code, told), (0, records.concat()), "{of}"),
    }
    assert!(queue.iter().all(|word| *word == 0) || queue.iter().all(|word| *word == 7));
}

#[test]
fn searches_by_hand_answer_as_the_second_program() {
    for flavour in flavours().into_iter().filter(is_small) {
        for seed in 1..8 {
            let file = generate(seed, flavour).unwrap();
            for words in [1, 2, 7, 8, 33, 4096] {
                assert_as_expected(&file, words, &format!("{flavour} {seed}"));
            }
        }
    }
}

/// Two edges: x comes within at both ends of v and not between, so that rows have a gap; z keeps u = 0 from being met at once.
fn gapped(rng: &mut Rng) -> Record {
    let (far, high) = (rng.between(8_000, 12_000), rng.between(66_000, 72_000));
    let mut off = || rng.between(-40, 40);
    let [start, end] = [-far, far].map(|x| {
        let first = [[x.max(0), 0, high], [x.max(0) + off(), 0, 20_000]];
        [first[0], first[1], [off(), 0, 0], [x, 60_000, 0]]
    });
    let (separations, budget) = ([100, 65_536, 65_536], rng.between(30, 900) as u32);
    Record {
        kind: EDGE_EDGE,
        separations,
        tolerance: 16,
        budget,
        start,
        end,
        ..Berth::new(1, Two).query()
    }
}

#[test]
fn rows_with_a_gap() {
    let mut rng = Rng::new(1, "gaps");
    let records: Vec<Record> = (0..200).map(|_| gapped(&mut rng)).collect();
    assert_as_expected(&file_of(Two, &records), 4096, "gaps");
    assert_as_expected(&file_of(Two, &records), 64, "gaps");
}

/// A record with coordinates at the ends of its edition's range, and tolerances too.
fn extreme(rng: &mut Rng, edition: Edition) -> Record {
    let Range { most_coordinate: most, least_tolerance: least, .. } = edition.range();
    let mut point = || [0; 3].map(|_: i32| rng.pick(&[-most, 0, most, most - 1]));
    let [start, end] = [[(); 4].map(|()| point()), [(); 4].map(|()| point())];
    let separations = [0; 3].map(|_: i32| rng.pick(&[0, 400, 65_536]));
    let (kind, flags) = (rng.pick(&[VERTEX_FACE, EDGE_EDGE]), rng.pick(&[0, 1]));
    let (tolerance, budget) = (rng.pick(&[least, 1_048_576]), rng.between(1, 300) as u32);
    let sound = Berth::new(1, edition).query();
    Record { kind, flags, separations, tolerance, budget, start, end, ..sound }
}

#[test]
fn coordinates_at_the_extremes() {
    for edition in [Two, Three] {
        let mut rng = Rng::new(1, "extremes");
        let records: Vec<Record> = (0..500).map(|_| extreme(&mut rng, edition)).collect();
        assert_as_expected(&file_of(edition, &records), 256, "extremes");
    }
}

/// Queries of a berth, and their file.
fn sample(seed: u64, edition: Edition, number: usize) -> (Vec<Record>, Vec<u8>) {
    let mut berth = Berth::new(seed, edition);
    let records: Vec<Record> = (0..number).map(|_| berth.query()).collect();
    let file = file_of(edition, &records);
    (records, file)
}

#[test]
fn berth_brings_clear_met_and_spent_and_mostly_level_0() {
    for edition in [One, Three] {
        let (code, told, _) = by_hand::<Fast>(&sample(1, edition, 4096).1, 4096);
        let number = |word: u32| told.chunks(8).filter(|told| told[1] == word).count();
        let level_0 = told.chunks(8).filter(|told| told[6] == 1).count();
        assert_eq!((code, number(0)), (0, 0));
        assert!(number(1) > 0 && number(2) > 3000 && number(3) > 0);
        assert!(level_0 > 3000 && level_0 < 4096, "{level_0}");
        assert_eq!(sample(1, edition, 5), sample(1, edition, 5));
        assert_ne!(sample(1, edition, 5), sample(2, edition, 5));
    }
}

#[test]
fn berth_of_edition_3_lies_beyond_the_shorter_range() {
    let (longer, _) = sample(1, Three, 4096);
    let (_, told, _) = by_hand::<Fast>(&file_of(Two, &longer), 4096);
    assert!(told.chunks(8).all(|told| told[7] == 3));
}

#[test]
fn the_same_ideas_leave_a_queue_of_zeros() {
    let (_, file) = sample(1, One, 4096);
    let queries: Vec<_> = records::<ONE>(&file, 0, 4096).collect();
    assert_eq!(queries.len(), 4096);
    for (query, words) in queries.iter().zip([4096, 65, 16].into_iter().cycle()) {
        let mut queue = vec![0; words];
        Same::search(&Asked::of(query, One.range().deepest), &mut queue);
        assert!(queue == vec![0; words]);
    }
}

#[test]
fn floats_find_what_the_exact_search_finds() {
    floats_find::<ONE>(One);
    floats_find::<TWO>(Three);
}

fn floats_find<const SIZE: usize>(edition: Edition) {
    let (_, file) = sample(1, edition, 4096);
    let (_, told, _) = by_hand::<Fast>(&file, 4096);
    let mut heap = BinaryHeap::new();
    let (mut decided, mut alike) = (0, 0);
    assert_eq!(queries::<SIZE>(&file).count(), told.len() / 8);
    for (query, told) in queries::<SIZE>(&file).zip(told.chunks(8)) {
        let Found { time, checks } = query.solve(&mut heap);
        assert!(checks >= 1);
        if told[1] == 1 || told[1] == 2 {
            decided += 1;
            alike += usize::from(time.is_some() == (told[1] == 1));
        }
    }
    // A float filter and a strict test of the width may turn a few.
    assert!(decided > 4000 && alike * 1000 >= decided * 999, "{alike} of {decided}");
}

/// Code, told and queue of the walk written by hand.
fn walked<W: Way>(bodies: &Bodies, words: usize) -> (u32, [u32; 8], Vec<u64>) {
    let (mut told, mut queue) = ([7; 8], vec![7; words]);
    let code = walk::bodies::<W>(bodies, &mut queue, &mut told);
    (code, told, queue)
}

#[test]
fn walks_by_hand_answer_as_the_second_program() {
    let small = second::gen::bodies::flavours().into_iter();
    let is_large = |name: &&str| second::gen::bodies::LARGE.contains(name);
    let small: Vec<&str> = small.filter(|name| !is_large(name)).collect();
    for (seed, flavour) in (1..30).flat_map(|seed| small.iter().map(move |name| (seed, name))) {
        let case = bodies::Case::new(seed, flavour).unwrap();
        for words in case.words {
            let bodies = case.drawn.bodies();
            let must = match told(&answer(&bodies, words)) {
                Err(refusal) => (refusal.number(), [7; 8], vec![7; words]),
                Ok(told) => (0, told, vec![0; words]),
            };
            assert!(walked::<Plain>(&bodies, words) == must, "{flavour} {seed} {words}");
            assert!(walked::<Same>(&bodies, words) == must, "{flavour} {seed} {words}");
            assert!(walked::<Fast>(&bodies, words) == must, "{flavour} {seed} {words}");
            let (mut queue, mut short) = (vec![7; words], [7; 7]);
            let code = walk::bodies::<Fast>(&bodies, &mut queue, &mut short);
            assert_eq!(code, if must.0 == 0 { 14 } else { must.0 });
            assert!(short == [7; 7] && queue == vec![7; words]);
        }
    }
}

#[test]
fn bodies_of_the_bench_are_far_apart_near_touching_and_near_by_a_block() {
    let queries = 256 * 256 * 15;
    assert_eq!(Class::all(1, Two)[0].bodies(16).b.count, 16);
    for edition in [Two, Three] {
        let [far, near, touching, last_block] = Class::all(1, edition).map(|class| {
            let bodies = class.bodies(256);
            let (code, told, _) = walked::<Fast>(&bodies, 4096);
            assert_eq!((bodies.edition, code, told[7]), (edition.number(), 0, 0), "{}", class.name);
            (told[0], told[6], told[1])
        });
        assert_eq!(far, (2, queries, 0));
        assert!(near.0 == 2 && near.1 > queries + queries / 10, "{near:?}");
        // Not at once, or the walk would end there.
        assert!(
            touching.0 != 2 && touching.1 > queries + queries / 20 && touching.2 > 0,
            "{touching:?}"
        );
        assert!(last_block.0 == 2 && last_block.1 > queries + queries / 100, "{last_block:?}");
    }
}

#[test]
fn bodies_of_edition_3_lie_beyond_the_shorter_range() {
    for class in Class::all(1, Three) {
        let bodies = Bodies { edition: 2, ..class.bodies(256) };
        assert_eq!(walked::<Fast>(&bodies, 4096).0, 3, "{}", class.name);
    }
}

#[test]
fn deeper_queries_by_their_boxes() {
    let Corpus { classes, by_size, .. } = Corpus::new(SEED, One);
    let boxes = |class: &corpus::Class| -> Vec<u32> {
        let (_, told, _) = by_hand::<Fast>(&class.file, 4096);
        told.chunks(8).map(|told| told[6]).collect()
    };
    let sizes = [2..=8, 9..=64, 65..=256, 257..=1000];
    for (class, size) in by_size.iter().zip(sizes) {
        let boxes = boxes(class);
        assert!(boxes.len() == class.queries && boxes.iter().all(|n| size.contains(n)));
    }
    assert_eq!(by_size.iter().map(|class| class.queries).sum::<usize>(), classes[2].queries);
    assert!(boxes(&classes[1]).iter().all(|n| *n == 1));
}

#[test]
fn growth_of_three_times() {
    let row = table::growth([60.0, 30.0, 20.0], 2.0, 10.0);
    assert_eq!(row, [30.0, 15.0, 10.0, 6.0, 3.0, 2.0, 2.0]);
}

#[test]
fn medians_and_boxes() {
    assert_eq!(median(vec![5.0, 1.0, 3.0]), 3.0);
    let mut asked = 0;
    let run = || {
        asked += 1;
        42
    };
    let measured = by_turns(&mut [Contestant { name: "one", run: Box::new(run) }], 3);
    assert_eq!(measured[0].boxes, 42);
    assert!(asked >= 5);
}
