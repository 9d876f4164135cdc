//! Bounds by hand, and the walk that passes blocks over by them.

use second::bench::bodies::bounded::{walk, Calls, BY_HAND};
use second::bench::bodies::bounds::{blocks, of, replace, Kept, BOUND};
use second::bench::bodies::corpus::{Class, SEPARATIONS};
use second::bench::bodies::costs;
use second::bench::bodies::walk::bodies as bodies_by_hand;
use second::bench::fast::Fast;
use second::beside::bodies::Case;
use second::bodies::{answer, told, Bodies, Body};
use second::edition::Edition::{Three, Two};
use second::gen::bodies::{flavours, LARGE};

/// Code, told and queue of the walk by bounds.
fn walked(bodies: &Bodies, lists: &[Vec<i32>; 2], words: usize) -> (u32, [u32; 8], Vec<u64>) {
    let (mut told, mut queue) = ([7; 8], vec![7; words]);
    let code = walk(bodies, [&lists[0], &lists[1]], &mut queue, &mut told);
    (code, told, queue)
}

/// Of a sound body; of another one nothing, since the walk looks at that first.
fn bounds_of(edition: u8, body: &Body) -> Vec<i32> {
    let mut bounds = vec![0; BOUND * blocks(body.count.min(256))];
    of(edition, body, &mut bounds);
    bounds
}

#[test]
fn walk_by_bounds_answers_as_the_second_program_without() {
    let small: Vec<&str> = flavours().into_iter().filter(|name| !LARGE.contains(name)).collect();
    for (seed, flavour) in (1..20).flat_map(|seed| small.iter().map(move |name| (seed, name))) {
        let case = Case::new(seed, flavour).unwrap();
        let bodies = case.drawn.bodies();
        let lists = [bodies.a, bodies.b].map(|body| bounds_of(bodies.edition, &body));
        for words in case.words {
            let must = match told(&answer(&bodies, words)) {
                Err(refusal) => (refusal.number(), [7; 8], vec![7; words]),
                Ok(told) => (0, told, vec![0; words]),
            };
            assert!(walked(&bodies, &lists, words) == must, "{flavour} {seed} {words}");
            let (mut queue, mut short) = (vec![7; words], [7; 7]);
            let code = walk(&bodies, [&lists[0], &lists[1]], &mut queue, &mut short);
            assert_eq!(code, if must.0 == 0 { 14 } else { must.0 });
            assert!(short == [7; 7] && queue == vec![7; words]);
        }
    }
}

/// Of many blocks and of short last ones, beside the walk by hand without bounds.
#[test]
fn walk_by_bounds_answers_as_the_walk_without() {
    for class in [Two, Three].into_iter().flat_map(|edition| Class::all(1, edition)) {
        for count in [31, 33, 100, 256] {
            let bodies = class.bodies(count);
            let (mut must, mut queue) = ([7; 8], vec![7; 4096]);
            assert_eq!(bodies_by_hand::<Fast>(&bodies, &mut queue, &mut must), 0);
            let lists = class.kept(count).map(|kept| kept.bounds);
            assert!(walked(&bodies, &lists, 4096) == (0, must, queue), "{} {count}", class.name);
        }
    }
}

/// A list of another length and each number of it wrong are refused, and nothing is written.
#[test]
fn a_list_that_is_not_exact_is_refused() {
    let [class, ..] = Class::all(1, Two);
    let bodies = class.bodies(33);
    let lists = [bodies.a, bodies.b].map(|body| bounds_of(2, &body));
    assert_eq!((lists[0].len(), walked(&bodies, &lists, 64).0), (12, 0));
    let refused = (27, [7; 8], vec![7; 64]);
    for (list, number) in (0..2).flat_map(|list| (0..12).map(move |number| (list, number))) {
        let mut wrong = lists.clone();
        wrong[list][number] += 1;
        assert!(walked(&bodies, &wrong, 64) == refused, "number {number} of list {list}");
        wrong[list].truncate(number);
        assert!(walked(&bodies, &wrong, 64) == refused, "{number} numbers in list {list}");
    }
    let longer = [lists[0].clone(), [&lists[1][..], &[0; 6]].concat()];
    assert!(walked(&bodies, &longer, 64) == refused);
    assert_eq!(walked(&bodies, &longer, 1).0, 7);
    assert_eq!(walked(&Bodies { edition: 9, ..bodies }, &longer, 64).0, 10);
}

/// Which blocks of A have a block of B that is not apart from them.
fn near_blocks(class: &Class) -> Vec<usize> {
    let [a, b] = class.kept(256).map(|kept| kept.bounds);
    let is_near = |a: &[i32], b: &[i32]| {
        let reaches = |from: &[i32], to: &[i32], axis: usize| {
            from[axis] - to[axis + 3] <= SEPARATIONS[axis] as i32
        };
        (0..3).all(|axis| reaches(a, b, axis) && reaches(b, a, axis))
    };
    let near = a.chunks(BOUND).map(|a| b.chunks(BOUND).any(|b| is_near(a, b)));
    near.enumerate().filter_map(|(block, near)| near.then_some(block)).collect()
}

#[test]
fn blocks_of_the_bench_that_are_near() {
    for edition in [Two, Three] {
        let near = Class::all(1, edition).map(|class| near_blocks(&class));
        // Touching bodies come down askew, and stay apart at the last row.
        let first = |blocks: usize| (0..blocks).collect::<Vec<_>>();
        assert_eq!(near, [first(0), first(8), first(7), vec![7]]);
    }
}

/// The papers' triangle whose fourth corner is (200, 0, 50), so many times, each 300 further along x.
fn copies(count: i32) -> Vec<i32> {
    let copy = |n: i32| [300 * n, 0, 0, 300 * n + 100, 0, 0, 300 * n + 100, 0, 50];
    (0..count).flat_map(copy).collect()
}

#[test]
fn bounds_of_two_blocks_and_of_a_replaced_triangle() {
    let list = copies(33);
    let mut kept = Kept::new(2, &Body { count: 33, start: &list, end: &list });
    assert_eq!(kept.bounds, [0, 0, 0, 9500, 0, 50, 9600, 0, 0, 9800, 0, 50]);
    let mut corners = [copies(1), copies(1)].concat();
    for y in [1, 4, 7] {
        corners[y] += 9999;
    }
    assert_eq!(replace(2, &mut kept, 32, &corners), 0);
    assert_eq!(kept.bounds, [0, 0, 0, 9500, 0, 50, 0, 0, 0, 200, 9999, 50]);
    assert_eq!([&kept.start[288..], &kept.end[288..]].concat(), corners);
    // Exact before, exact after: in the first block too, and wherever the triangle stands in it.
    for n in [0, 15, 31] {
        assert_eq!(replace(2, &mut kept, n, &corners), 0);
        assert_eq!(kept.bounds, bounds_of(2, &kept.body()));
    }
}

#[test]
fn bounds_are_refused_as_the_library_refuses() {
    let (list, mut room) = (copies(33), [7; 12]);
    let far: Vec<i32> = list.iter().map(|number| number + 1_040_000).collect();
    let mut code = |edition, end, lent: usize| {
        of(edition, &Body { count: 33, start: &list, end }, &mut room[..lent])
    };
    assert_eq!([code(4, &list, 12), code(2, &list[9..], 12)], [10, 21]);
    assert_eq!([code(2, &far, 11), code(2, &list, 11), code(3, &far, 11)], [3, 14, 14]);
    assert_eq!(room, [7; 12]);
}

#[test]
fn replacing_is_refused_as_the_library_refuses() {
    let list = copies(33);
    let kept = Kept::new(2, &Body { count: 33, start: &list, end: &list });
    let short = Kept { bounds: vec![0; 5], ..kept.clone() };
    let mut spoiled = kept.clone();
    spoiled.end[9 * 32] = 1_048_577;
    let sound = [copies(1), copies(1)].concat();
    let mut outside = sound.clone();
    outside[17] = 1_048_577;
    let code = |edition, kept: &Kept, n, corners: &[i32]| {
        let mut left = kept.clone();
        let code = replace(edition, &mut left, n, corners);
        assert!(code == 0 || left == *kept);
        code
    };
    assert_eq!([code(0, &kept, 33, &outside), code(2, &kept, 33, &outside[1..])], [10, 21]);
    assert_eq!([code(2, &kept, 33, &outside), code(2, &short, 32, &outside)], [13, 3]);
    assert_eq!([code(3, &short, 32, &outside), code(3, &kept, 32, &outside)], [27, 0]);
    // One that goes is not looked at, and no other block is.
    assert_eq!([code(2, &spoiled, 32, &sound), code(2, &spoiled, 31, &sound)], [0, 0]);
    let mut both = spoiled.clone();
    both.start[9 * 31] = 1_048_577;
    assert_eq!(code(2, &both, 30, &sound), 3);
}

#[test]
fn costs_are_of_calls_that_leave_the_same() {
    let lazy = Calls { replace: |_, _, _, _| 0, ..BY_HAND };
    assert!(!costs::run(&lazy, Two, 1));
    assert!(costs::run(&BY_HAND, Two, 1));
}
