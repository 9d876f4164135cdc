//! The library and the walks by hand, measured by turns on the same bodies.

use super::bounded::{Calls, Lists, BY_HAND};
use super::corpus::{Class, BLOCKS_COUNTS, COUNTS};
use super::walk;
use crate::bench::fast::Fast;
use crate::bench::measure::{by_turns, Contestant, Measured, ROUNDS};
use crate::bench::plain::Plain;
use crate::bench::same::Same;
use crate::bench::table::{self, Head};
use crate::beside::Library;
use crate::bodies::{Bodies, MOST_TRIANGLES, QUERIES};
use crate::edition::Edition;
use std::hint::black_box;

const WORDS: [&str; 6] = ["REFUSED", "MET", "CLEAR", "SPENT", "ROOM", "FLOOR"];
const HEADS: [Head; 5] =
    [("ms a walk", 4), ("ns a query", 3), ("boxes a query", 3), ("ratio", 2), ("by bounds", 2)];
const BOUNDS_GROWTH: [Head; 4] =
    [("proved", 4), ("by hand", 4), ("without bounds", 4), ("by bounds", 2)];
const GROWTH: [Head; 7] = [
    ("proved a walk", 4),
    ("same a walk", 4),
    ("fastest a walk", 4),
    ("proved a pair", 1),
    ("same a pair", 1),
    ("fastest a pair", 1),
    ("ratio", 2),
];

/// Two bodies, their bounds, a queue and told; those without bounds look at none.
type Walked<'a> = Box<dyn Fn(&Bodies, Lists, &mut [u64], &mut [u32]) -> u32 + 'a>;

/// What is measured: the library, its calls with bounds, and how many words are lent.
#[derive(Clone, Copy)]
pub struct Contest<'a> {
    pub library: &'a Library,
    pub bounds: Calls,
    pub words: usize,
}

impl Contest<'_> {
    /// Says the figures of every class of an edition; false where some answers are not the same.
    pub fn run(&self, edition: Edition, seed: u64) -> bool {
        let classes = Class::all(seed, edition);
        let is_wrong = |(class, count): &(&Class, usize)| !self.alike(class, *count);
        if let Some((class, count)) = of_each(&classes, COUNTS).find(is_wrong) {
            println!("{}, {count} triangles: the answers are not the same", class.name);
            return false;
        }
        let edition = edition.number();
        println!("\nbodies, edition {edition}: {MOST_TRIANGLES} by {MOST_TRIANGLES} triangles");
        for class in &classes {
            self.show(class);
        }
        true
    }

    /// Says how the times go up with the triangles.
    pub fn growth(&self, edition: Edition, seed: u64) {
        let [far, near, touching, _] = Class::all(seed, edition);
        println!("\nbodies by their triangles, milliseconds a walk and nanoseconds a pair");
        let classes = [far, near, touching];
        let rows = of_each(&classes, COUNTS).map(|(class, count)| self.grow(class, count));
        table::print(&GROWTH, &rows.collect::<Vec<_>>());
        println!("\nthe same with bounds, milliseconds a walk");
        let rows = of_each(&classes[..2], BLOCKS_COUNTS);
        let rows = rows.map(|(class, count)| self.grow_by_bounds(class, count));
        table::print(&BOUNDS_GROWTH, &rows.collect::<Vec<_>>());
    }

    /// Those measured.
    fn walks(&self) -> [(&'static str, Walked<'_>); 6] {
        fn by_hand<W: walk::Way>() -> Walked<'static> {
            Box::new(|bodies, _, queue, told| walk::bodies::<W>(bodies, queue, told))
        }
        let proved = |bodies: &Bodies, _: Lists, queue: &mut [u64], told: &mut [u32]| {
            self.library.bodies(bodies, queue, told)
        };
        [
            ("proved, taperhive_walk", Box::new(self.bounds.walk)),
            ("by hand, by bounds", Box::new(BY_HAND.walk)),
            ("proved, taperhive_bodies", Box::new(proved)),
            ("by hand, the same ideas", by_hand::<Same>()),
            ("by hand, fastest", by_hand::<Fast>()),
            ("by hand, eight corners", by_hand::<Plain>()),
        ]
    }

    /// All return 0, tell the same, and leave the same queue.
    fn alike(&self, class: &Class, count: usize) -> bool {
        let (bodies, [a, b]) = (class.bodies(count), class.kept(count));
        let answers = self.walks().map(|(_, walked)| {
            let (mut queue, mut told) = (vec![1; self.words], [1; 8]);
            (walked(&bodies, [&a.bounds, &b.bounds], &mut queue, &mut told), queue, told)
        });
        answers[0].0 == 0 && answers.iter().all(|answer| *answer == answers[0])
    }

    /// A walk through so many triangles of both.
    fn contestant<'a>(
        &self,
        (name, walked): (&'static str, Walked<'a>),
        class: &'a Class,
        count: usize,
    ) -> Contestant<'a> {
        let (mut queue, mut told) = (vec![0; self.words], [0; 8]);
        let [a, b] = class.kept(count);
        let run = move || {
            let lists = [&a.bounds[..], &b.bounds];
            walked(black_box(&class.bodies(count)), black_box(lists), &mut queue, &mut told);
            u64::from(told[6]) | u64::from(told[7]) << 32
        };
        Contestant { name, run: Box::new(run) }
    }

    fn show(&self, class: &Class) {
        let queries = (MOST_TRIANGLES * MOST_TRIANGLES * QUERIES as usize) as f64;
        let mut contestants =
            self.walks().map(|walked| self.contestant(walked, class, MOST_TRIANGLES));
        let measured = by_turns(&mut contestants, ROUNDS);
        let [_, by_bounds, _, same_ideas, ..] = measured.map(|one| one.nanoseconds);
        let row = |(one, Measured { nanoseconds, boxes }): (&Contestant, Measured)| {
            let (walk, a_query) = (nanoseconds / 1e6, nanoseconds / queries);
            let ratios = [nanoseconds / same_ideas, nanoseconds / by_bounds];
            let numbers = vec![walk, a_query, boxes as f64 / queries, ratios[0], ratios[1]];
            (one.name.to_string(), numbers)
        };
        println!("\n{}: {}", class.name, answer(class, self.words));
        table::print(&HEADS, &contestants.iter().zip(measured).map(row).collect::<Vec<_>>());
    }

    /// How the time goes up with the triangles.
    fn grow(&self, class: &Class, count: usize) -> (String, Vec<f64>) {
        let [_, _, proved, same_ideas, fastest, _] = self.walks();
        let times = self.times([proved, same_ideas, fastest], class, count);
        let row = table::growth(times, 1e6, (count * count) as f64);
        (format!("{}, {count} by {count}", class.name), row)
    }

    /// The same of the walks with bounds, beside the proved one without.
    fn grow_by_bounds(&self, class: &Class, count: usize) -> (String, Vec<f64>) {
        let [proved, by_hand, without, ..] = self.walks();
        let times = self.times([proved, by_hand, without], class, count);
        let [proved, by_hand, without] = times.map(|time| time / 1e6);
        let row = vec![proved, by_hand, without, proved / by_hand];
        (format!("{}, {count} by {count}", class.name), row)
    }

    /// Nanoseconds of three walks.
    fn times<'a>(
        &self,
        three: [(&'static str, Walked<'a>); 3],
        class: &'a Class,
        count: usize,
    ) -> [f64; 3] {
        let mut three = three.map(|walked| self.contestant(walked, class, count));
        by_turns(&mut three, ROUNDS).map(|measured| measured.nanoseconds)
    }
}

fn of_each<const N: usize>(
    classes: &[Class],
    counts: [usize; N],
) -> impl Iterator<Item = (&Class, usize)> {
    classes.iter().flat_map(move |class| counts.map(|count| (class, count)))
}

/// What a walk by hand is answered.
fn answer(class: &Class, words: usize) -> String {
    let (mut queue, mut told) = (vec![0; words], [0; 8]);
    walk::bodies::<Fast>(&class.bodies(MOST_TRIANGLES), &mut queue, &mut told);
    let [word, t, a, b, query, excess, ..] = told;
    let word = WORDS[word as usize];
    format!("{word}, t {t}, triangles {a} and {b}, query {query}, excess {excess}")
}
