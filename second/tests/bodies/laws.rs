//! What holds for every two bodies with bounds: nothing is lost by what is passed over, and bounds stay true.

use second::bodies::bounds::{apart, bounds, BLOCK, BOUND};
use second::bodies::replacing::Kept;
use second::bodies::{Asked, Bodies, Body};
use second::edition::Range;
use second::gen::bodies::{flavours, generate, Drawn, LARGE};
use second::record::Record;
use second::refusals::MOST_CAP;
use second::rng::Rng;
use second::search::{search, Answer};

/// Sound bodies of every flavour that has some, without the largest.
fn sound(seeds: u64) -> impl Iterator<Item = Drawn> {
    let names = flavours().into_iter().filter(|name| !LARGE.contains(name));
    let all = names.flat_map(move |name| (1..=seeds).filter_map(move |seed| generate(seed, name)));
    all.filter(|drawn| lists(&drawn.bodies()).is_some())
}

/// The lists of both bodies, where they are sound.
fn lists(bodies: &Bodies) -> Option<[Vec<i32>; 2]> {
    let list = |body: &Body| bounds(bodies.edition, body).ok();
    Some([list(&bodies.a)?, list(&bodies.b)?])
}

fn entry(list: &[i32], triangle: u32) -> &[i32] {
    &list[BOUND * (triangle as usize / BLOCK)..][..BOUND]
}

#[test]
fn every_query_passed_over_is_clear_by_one_check() {
    let mut rng = Rng::new(7, "passed over");
    let mut passed = 0;
    for drawn in sound(3) {
        let bodies = drawn.bodies();
        let [of_a, of_b] = lists(&bodies).unwrap();
        let is_passed =
            |asked: &Asked| apart(entry(&of_a, asked.a), entry(&of_b, asked.b), bodies.separations);
        let range = Range::of(bodies.edition);
        for asked in bodies.queries().filter(is_passed) {
            let cap = rng.pick(&[0, 1, MOST_CAP / 2, MOST_CAP]);
            // Budget and room matter to nothing that has one box.
            let record = Record { cap, budget: 1, ..asked.record };
            // A record that is refused for another number than its points is none of the walk's.
            let answer = search(&record, range, 2);
            if !matches!(answer, Answer::Refused(_)) {
                assert_eq!(answer, Answer::Clear { count: 1 }, "{record:?}");
                passed += 1;
            }
        }
    }
    assert!(passed > 20_000, "{passed}");
}

#[test]
fn bounds_stay_true_where_a_triangle_is_replaced() {
    let mut rng = Rng::new(7, "replaced");
    let mut changed = 0;
    for drawn in sound(3) {
        let Bodies { edition, a, b, .. } = drawn.bodies();
        let bounds_of = |body: &Body| bounds(edition, body).unwrap();
        let (start, end) = (a.start.to_vec(), a.end.to_vec());
        let mut kept = Kept { count: a.count, start, end, bounds: bounds_of(&a) };
        for _ in 0..4 {
            let before = kept.clone();
            let (n, other) = (rng.below(a.count), rng.below(b.count));
            let corners = [b.start, b.end].map(|list| list[9 * other..9 * (other + 1)].to_vec());
            kept.replace(edition, n, &corners.concat()).unwrap();
            assert_eq!(kept.bounds, bounds_of(&kept.body()));
            let entries = kept.bounds.chunks(BOUND).zip(before.bounds.chunks(BOUND));
            let differ: Vec<usize> = (0..)
                .zip(entries)
                .filter(|(_, (is, was))| is != was)
                .map(|(block, _)| block)
                .collect();
            assert!(differ.is_empty() || differ == [n / BLOCK]);
            changed += differ.len();
        }
    }
    assert!(changed > 100, "{changed}");
}
