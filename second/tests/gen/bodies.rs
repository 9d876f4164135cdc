//! The generator of bodies: what each flavour promises.

use second::bodies::{answer, refusal, walk, BodiesAnswer, Least};
use second::edition::Range;
use second::gen::bodies::{flavours, generate, words::words, Drawn, LARGE};
use second::record::Record;
use second::refusals::{Refusal, MOST_WORDS};
use second::search::search;
use second::told::told;

const SEEDS: u64 = 60;
const SOUND: [&str; 13] = [
    "bodies-near",
    "bodies-far",
    "bodies-ties",
    "bodies-falling",
    "bodies-clumps",
    "bodies-touching",
    "bodies-start",
    "bodies-together",
    "bodies-degenerate",
    "bodies-extreme",
    "bodies-deep",
    "bodies-budget",
    "bodies-queue",
];

/// A flavour in the shorter range and in the longer.
fn both(flavour: &str) -> [String; 2] {
    ["", "3"].map(|number| format!("{flavour}{number}"))
}

/// The flavours of sound bodies in both ranges.
fn sound() -> Vec<String> {
    SOUND.into_iter().flat_map(both).collect()
}

fn drawn(flavour: &str) -> impl Iterator<Item = Drawn> + '_ {
    (1..=SEEDS).map(move |seed| generate(seed, flavour).unwrap())
}

/// The refusal's number with 64 words, 0 for none.
fn number(drawn: &Drawn) -> u32 {
    refusal(&drawn.bodies(), 64).map_or(0, Refusal::number)
}

/// How many of a flavour's bodies are so.
fn how_many(flavour: &str, is_so: impl Fn(&Drawn) -> bool) -> usize {
    drawn(flavour).filter(|drawn| is_so(drawn)).count()
}

#[test]
fn seed_and_flavour_decide_the_bodies() {
    for flavour in flavours() {
        assert_eq!(generate(3, flavour), generate(3, flavour));
        assert_ne!(generate(3, flavour), generate(4, flavour));
    }
    assert_eq!(generate(3, "near"), None);
}

#[test]
fn shapes_are_sound_bodies_of_one_to_twelve_triangles() {
    let mut seen = [[false; 13]; 2];
    for drawn in sound().iter().flat_map(|flavour| drawn(flavour)) {
        assert_eq!(number(&drawn), 0);
        for (side, count) in drawn.counts.into_iter().enumerate() {
            seen[side][count] = true;
        }
    }
    assert_eq!(seen.map(|counts| counts.iter().filter(|seen| **seen).count()), [12, 12]);
}

#[test]
fn shapes_bring_every_word_but_floor_at_nought_and_later() {
    for range in 0..2 {
        let (mut words, mut later) = ([0; 6], [0; 6]);
        let flavours = SOUND.map(|flavour| both(flavour)[range].clone());
        for drawn in flavours.iter().flat_map(|flavour| drawn(flavour).take(20)) {
            match answer(&drawn.bodies(), 64) {
                BodiesAnswer::Clear { .. } => words[2] += 1,
                BodiesAnswer::Least(Least { word, t, .. }) => {
                    words[word as usize] += 1;
                    later[word as usize] += usize::from(t > 0);
                }
                BodiesAnswer::Refused(refusal) => panic!("{refusal:?}"),
            }
        }
        assert!([1, 2, 3, 4].iter().all(|word| words[*word] >= 5), "{words:?}");
        assert!([1, 3, 4].iter().all(|word| later[*word] >= 1), "{later:?}");
    }
}

#[test]
fn separations_are_mostly_not_equal_and_motions_differ() {
    let unequal = |drawn: &Drawn| drawn.separations != [drawn.separations[0]; 3];
    assert!(how_many("bodies-near", unequal) > SEEDS as usize / 4);
    assert!(how_many("bodies-near", |drawn| drawn.positions[0][0] != drawn.positions[0][1]) > 40);
    let ends = |drawn: &Drawn| {
        let mut all = drawn.positions.as_flattened().iter().flatten();
        let most = Range::of(drawn.edition).most_coordinate;
        all.all(|coordinate| [0, most].contains(&coordinate.abs()))
    };
    assert_eq!(how_many("bodies-extreme", ends), SEEDS as usize);
    // Those that lie between the ends are moved out.
    assert!(how_many("bodies-extreme3", ends) > SEEDS as usize / 2);
    let together = |drawn: &Drawn| {
        let way = |side: usize, axis: usize| {
            let [start, end] = &drawn.positions[side];
            end[axis] - start[axis]
        };
        (0..3).all(|axis| way(0, axis) == way(1, axis))
    };
    assert_eq!(how_many("bodies-together", together), SEEDS as usize);
}

#[test]
fn ties_have_their_time_at_several_queries_with_different_numbers() {
    let (mut tied, mut told_apart) = (0, 0);
    for drawn in drawn("bodies-ties").take(20) {
        let ask = |record: &Record| told(&search(record, Range::SHORTER, 64));
        let asked = drawn.bodies().queries().map(|asked| ask(&asked.record));
        let answers: Vec<[u32; 7]> = asked.filter(|told| told[0] != 2).collect();
        let least = answers.iter().map(|told| told[1]).min();
        let first: Vec<&[u32; 7]> = answers.iter().filter(|told| Some(told[1]) == least).collect();
        tied += usize::from(first.len() > 1);
        told_apart += usize::from(first.iter().any(|told| told[4] != first[0][4]));
    }
    assert!(tied >= 10 && told_apart >= 2, "{tied} {told_apart}");
}

#[test]
fn refusals_come_alone_and_together() {
    for (flavour, refused) in
        both("bodies-refusals").iter().flat_map(|f| (3..=6).map(move |n| (f, n)))
    {
        assert!(how_many(flavour, |drawn| number(drawn) == refused) >= 3, "{flavour} {refused}");
    }
    // The first query's own coordinate goes before the tolerance, a later one's behind it.
    let bad_tolerance = |drawn: &Drawn| !(16..=1_048_576).contains(&drawn.tolerance);
    for refused in [3, 5] {
        let both = |drawn: &Drawn| {
            let right = Drawn { separations: [0; 3], tolerance: 16, budget: 1, ..drawn.clone() };
            bad_tolerance(drawn) && number(&right) == 3 && number(drawn) == refused
        };
        let many = (1..2_000).filter_map(|seed| generate(seed, "bodies-refusals"));
        assert!(many.filter(both).count() >= 5, "{refused}");
    }
}

#[test]
fn lengths_and_counts_are_refused_each_way() {
    for side in 0..2 {
        for end in 0..2 {
            let other = |drawn: &Drawn| {
                drawn.positions[side][end].len() != 9 * drawn.counts[side] && number(drawn) == 21
            };
            assert!(how_many("bodies-lengths", other) >= 3, "{side} {end}");
        }
        let count = |is_so: fn(usize, usize) -> bool| {
            let of = |drawn: &Drawn| (drawn.counts[side], drawn.positions[side][0].len());
            let many = (1..300).filter_map(|seed| generate(seed, "bodies-counts"));
            many.map(|drawn| of(&drawn)).filter(|(count, length)| is_so(*count, *length)).count()
        };
        assert!(count(|count, length| count == 0 && length == 0) >= 3);
        assert!(count(|count, length| count == 256 && length == 2_304) >= 3);
        assert!(count(|count, length| count == 257 && length == 2_313) >= 3);
        assert!(count(|count, length| count > 1 << 60 && count.wrapping_mul(9) == length) >= 3);
        assert!(
            count(|count, length| count > 1 << 31 && 9 * (count as u32 as usize) == length) >= 3
        );
    }
}

#[test]
fn queue_lengths_of_every_sort() {
    let mut tried = Vec::new();
    for flavour in sound() {
        for seed in 1..=SEEDS {
            tried.extend(words(seed, &flavour, &generate(seed, &flavour).unwrap()));
        }
    }
    for length in [0, 1, 2, 3, 64, 4_096, MOST_WORDS, MOST_WORDS + 1] {
        assert!(tried.contains(&length), "{length}");
    }
    assert!(tried.iter().filter(|length| **length % 2 == 1).count() > 100);
}

#[test]
fn largest_bodies_are_sound() {
    for seed in 1..5 {
        for drawn in LARGE.map(|flavour| generate(seed, flavour).unwrap()) {
            assert_eq!((drawn.counts, number(&drawn)), ([256, 256], 0));
        }
    }
}

#[test]
fn editions_are_those_of_the_range_or_none() {
    for flavour in SOUND {
        let [shorter, longer] = both(flavour);
        for edition in [1, 2] {
            assert!(how_many(&shorter, |drawn| drawn.edition == edition) > SEEDS as usize / 4);
        }
        assert_eq!(how_many(&shorter, |drawn| drawn.edition == 3), 0);
        assert_eq!(how_many(&longer, |drawn| drawn.edition == 3), SEEDS as usize);
    }
    for flavour in both("bodies-editions") {
        assert_eq!(how_many(&flavour, |drawn| number(drawn) == 10), SEEDS as usize);
        for edition in [0, 4, 129, 255] {
            assert!(how_many(&flavour, |drawn| drawn.edition == edition) >= 3, "{edition}");
        }
        // What would be given if the edition were one.
        let behind = |drawn: &Drawn| number(&Drawn { edition: 3, ..drawn.clone() });
        for refused in [0, 3, 5, 21] {
            assert!(how_many(&flavour, |drawn| behind(drawn) == refused) >= 1, "{refused}");
        }
    }
}

#[test]
fn longer_range_is_used() {
    for flavour in SOUND.map(|flavour| both(flavour)[1].clone()) {
        let coordinates = |drawn: &Drawn| drawn.positions.as_flattened().concat();
        let beyond = |drawn: &Drawn| coordinates(drawn).iter().any(|c| !Range::SHORTER.holds(*c));
        assert!(how_many(&flavour, beyond) > SEEDS as usize / 2, "{flavour}");
        let end = |drawn: &Drawn| coordinates(drawn).iter().any(|c| c.abs() == 2_097_152);
        assert!(how_many(&flavour, end) > SEEDS as usize / 3, "{flavour}");
    }
}

#[test]
fn deep_bodies_need_the_depth_that_t_has() {
    for (flavour, other) in both("bodies-deep").iter().zip([19, 20]) {
        let otherwise = |drawn: &Drawn| {
            let range = Range { deepest: other, ..Range::of(drawn.edition) };
            let walked = walk(drawn.bodies().queries(), |record| search(record, range, 4096));
            walked != answer(&drawn.bodies(), 4096)
        };
        assert!(drawn(flavour).take(12).filter(otherwise).count() >= 6, "{flavour}");
    }
}
