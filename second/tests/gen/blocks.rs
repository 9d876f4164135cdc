//! The generator of bodies whose bounds matter: what each flavour promises, in both ranges.

use second::bodies::bounds::{apart, bounds, BLOCK, BOUND};
use second::bodies::{answer, refusal, Bodies, BodiesAnswer, Body, Least};
use second::gen::bodies::{generate, Drawn};
use second::refusals::Refusal;

const SEEDS: u64 = 60;

fn drawn(flavour: &str) -> impl Iterator<Item = Drawn> + '_ {
    (1..=SEEDS).map(move |seed| generate(seed, flavour).unwrap())
}

/// A flavour in the shorter range and in the longer.
fn both(flavour: &str) -> [String; 2] {
    ["", "3"].map(|number| format!("{flavour}{number}"))
}

fn entries(edition: u8, body: &Body) -> Vec<Vec<i32>> {
    let list = bounds(edition, body).unwrap();
    list.chunks(BOUND).map(<[i32]>::to_vec).collect()
}

/// Blocks of A and of B, and whether they are passed over.
fn pairs_of_blocks(bodies: &Bodies) -> Vec<([usize; 2], bool)> {
    let [of_a, of_b] = [bodies.a, bodies.b].map(|body| entries(bodies.edition, &body));
    let mut pairs = Vec::new();
    for (i, a) in of_a.iter().enumerate() {
        for (j, b) in of_b.iter().enumerate() {
            pairs.push(([i, j], apart(a, b, bodies.separations)));
        }
    }
    pairs
}

/// How far the bounds of two bodies of one block each are further apart than the separation, on the axis where that is most, and that axis.
fn beyond(bodies: &Bodies) -> (i32, usize) {
    let [a, b] = [bodies.a, bodies.b].map(|body| entries(bodies.edition, &body).remove(0));
    let on = |axis: usize| {
        let gap = (a[axis] - b[3 + axis]).max(b[axis] - a[3 + axis]);
        (gap - bodies.separations[axis] as i32, axis)
    };
    [0, 1, 2].map(on).into_iter().max().unwrap()
}

#[test]
fn bounds_touch_miss_by_one_and_overlap_on_each_axis() {
    for flavour in both("bodies-bounds") {
        let mut seen = [[0; 3]; 3];
        let mut surviving = 0;
        for drawn in (1..=2 * SEEDS).filter_map(|seed| generate(seed, &flavour)) {
            let bodies = drawn.bodies();
            let (far, axis) = beyond(&bodies);
            if let Some(sort) = [-1, 0, 1].iter().position(|by| *by == far) {
                seen[sort][axis] += 1;
            }
            let pairs = (bodies.a.count * bodies.b.count) as u64;
            let is_plain = answer(&bodies, 64) == BodiesAnswer::Clear { count: 15 * pairs };
            assert!(far <= 0 || is_plain);
            surviving += usize::from(far == 0 && !is_plain);
        }
        assert!(seen.as_flattened().iter().all(|number| *number > 0), "{flavour} {seen:?}");
        assert!(surviving >= 2, "{flavour} {surviving}");
    }
}

#[test]
fn blocks_are_whole_or_one_triangle_short_or_begun() {
    for flavour in both("bodies-blocks") {
        let mut counts: Vec<usize> = drawn(&flavour).flat_map(|drawn| drawn.counts).collect();
        counts.sort();
        counts.dedup();
        assert_eq!(counts, [1, 2, 3, 31, 32, 33, 64, 65, 256], "{flavour}");
        let partly = |drawn: &Drawn| {
            let passed: Vec<bool> =
                pairs_of_blocks(&drawn.bodies()).iter().map(|(_, passed)| *passed).collect();
            passed.contains(&true) && passed.contains(&false)
        };
        assert!(drawn(&flavour).filter(partly).count() >= 10, "{flavour}");
    }
}

#[test]
fn bodies_are_sound_but_for_a_coordinate_in_some_block() {
    let number = |drawn: &Drawn| refusal(&drawn.bodies(), 64).map_or(0, Refusal::number);
    for flavour in ["bodies-bounds", "bodies-blocks", "bodies-through", "bodies-ended"] {
        assert!(both(flavour).iter().all(|name| drawn(name).all(|drawn| number(&drawn) == 0)));
    }
    for flavour in both("bodies-blocks-refused") {
        assert!(drawn(&flavour).all(|drawn| number(&drawn) == 3), "{flavour}");
        let late = |drawn: &Drawn| {
            let range = second::edition::Range::of(drawn.edition);
            let mut lists = drawn.positions.as_flattened().iter();
            lists.any(|list| list.iter().skip(9 * BLOCK).any(|number| !range.holds(*number)))
        };
        assert!(drawn(&flavour).filter(late).count() >= 10, "{flavour}");
    }
}

#[test]
fn walks_end_before_and_behind_what_is_passed_over() {
    for flavour in both("bodies-ended") {
        let (mut before, mut behind) = (0, 0);
        for drawn in drawn(&flavour) {
            let bodies = drawn.bodies();
            if let BodiesAnswer::Least(Least { t: 0, a, b, .. }) = answer(&bodies, 64) {
                let end = [a, b].map(|triangle| triangle as usize / BLOCK);
                let passed = pairs_of_blocks(&bodies);
                let mut passed = passed.iter().filter(|(_, passed)| *passed);
                behind += usize::from(passed.clone().any(|(pair, _)| *pair > end));
                before += usize::from(passed.any(|(pair, _)| *pair < end));
            }
        }
        assert!(before >= 5 && behind >= 10, "{flavour} {before} {behind}");
    }
}

#[test]
fn later_times_come_beside_what_is_passed_over() {
    for flavour in both("bodies-through") {
        let later = |drawn: &Drawn| {
            let bodies = drawn.bodies();
            let passed = pairs_of_blocks(&bodies).iter().any(|(_, passed)| *passed);
            passed && matches!(answer(&bodies, 4096), BodiesAnswer::Least(least) if least.t > 0)
        };
        assert!(drawn(&flavour).take(20).filter(later).count() >= 8, "{flavour}");
    }
}
