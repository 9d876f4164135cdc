//! Measures the proved search beside exact ones written by hand and 004's method in floats, and the walk through two bodies, in one run.

use second::bench::answering::{answers, ByHand};
use second::bench::bodies::contest::Contest;
use second::bench::bodies::{costs, linked as with_bounds};
use second::bench::corpus::{Class, Corpus, QUEUE_WORDS, SEED};
use second::bench::fast::Fast;
use second::bench::float::{queries, Query};
use second::bench::logged;
use second::bench::measure::{by_turns, Contestant, Measured, ROUNDS};
use second::bench::plain::Plain;
use second::bench::reading::{ONE, TWO};
use second::bench::same::Same;
use second::bench::table::{self, Head};
use second::beside::{linked, Library};
use second::edition::Edition;
use std::borrow::Borrow;
use std::collections::BinaryHeap;
use std::hint::black_box;
use std::process::ExitCode;

const HEADS: [Head; 4] = [("ns a query", 1), ("ns a box", 1), ("boxes a query", 1), ("ratio", 2)];
const GROWTH: [Head; 8] = [
    ("proved a query", 1),
    ("same a query", 1),
    ("fastest a query", 1),
    ("proved a box", 1),
    ("same a box", 1),
    ("fastest a box", 1),
    ("ratio", 2),
    ("boxes a query", 1),
];

fn main() -> ExitCode {
    println!("ratio: the time by that of the same ideas by hand; by bounds: by that of the walk by hand that has bounds");
    println!("{ROUNDS} rounds, queue of {QUEUE_WORDS} words, seed {SEED}");
    if figures(&linked::library()) {
        ExitCode::SUCCESS
    } else {
        ExitCode::FAILURE
    }
}

/// Those of the shorter range with their growth, then the longer range's; false where some answers are not the same.
fn figures(library: &Library) -> bool {
    let corpus = Corpus::new(SEED, Edition::One);
    let (gangway, hull) = corpus.triangles;
    println!("berth: {gangway} triangles of gangway, {hull} of hull");
    if !show_all::<ONE>(&corpus.classes, library) {
        return false;
    }
    grow(&corpus.by_size, library);
    clearing();
    let contest = Contest { library, bounds: with_bounds::LINKED, words: QUEUE_WORDS };
    if !contest.run(Edition::Two, SEED) || !costs::run(&contest.bounds, Edition::Two, SEED) {
        return false;
    }
    contest.growth(Edition::Two, SEED);
    println!("\nedition 3");
    let [_, level_0, deeper] = Corpus::new(SEED, Edition::Three).classes;
    show_all::<TWO>(&[level_0, deeper], library) && contest.run(Edition::Three, SEED)
}

/// Files of records of SIZE bytes; false where some answers are not the same.
fn show_all<const SIZE: usize>(classes: &[Class], library: &Library) -> bool {
    classes.iter().all(|class| {
        let alike = alike(library, class);
        if alike {
            show::<SIZE>(class, library);
        } else {
            println!("{}: the answers are not the same", class.name);
        }
        alike
    })
}

/// The proved search, its answer file read back, and all exact ones written by hand give the same numbers.
fn alike(library: &Library, class: &Class) -> bool {
    let answers_by = |by: &dyn Fn(&mut [u64], &mut [u32]) -> u32| {
        let (mut queue, mut told) = (vec![1; QUEUE_WORDS], vec![1; 8 * class.queries]);
        (by(&mut queue, &mut told), queue, told)
    };
    let proved = answers_by(&|queue, told| library.answers(&class.file, queue, told));
    let same = answers_by(&|queue, told| answers::<Same>(&class.file, queue, told));
    let fast = answers_by(&|queue, told| answers::<Fast>(&class.file, queue, told));
    let plain = answers_by(&|queue, told| answers::<Plain>(&class.file, queue, told));
    let log = |file: &[u8], queue: &mut [u64], out: &mut [u8]| library.log(file, queue, out);
    let read = |log: &[u8], n: usize, told: &mut [u32]| library.log_read(log, n, told);
    let logged = answers_by(&|queue, told| logged::read_back(log, read, &class.file, queue, told));
    proved.0 == 0 && [same, fast, plain, logged].iter().all(|other| *other == proved)
}

fn show<const SIZE: usize>(class: &Class, library: &Library) {
    let ready: Vec<Query> = queries::<SIZE>(&class.file).collect();
    let mut contestants = [
        proved(class, library),
        by_hand::<Same>("by hand, the same ideas", class),
        into_a_log(class, library),
        one_by_one(class, library),
        by_hand::<Fast>("by hand, fastest", class),
        by_hand::<Plain>("by hand, eight corners", class),
        floats("floats of 004, from the file", || queries::<SIZE>(&class.file)),
        floats("floats of 004, points ready", || ready.iter()),
    ];
    let measured = by_turns(&mut contestants, ROUNDS);
    let [answers, same_ideas, log] = [0, 1, 2].map(|n| measured[n].nanoseconds);
    let row = |(one, Measured { nanoseconds, boxes }): (&Contestant, Measured)| {
        let (queries, boxes) = (class.queries as f64, boxes as f64);
        let (a_query, a_box) = (nanoseconds / queries, nanoseconds / boxes);
        (one.name.to_string(), vec![a_query, a_box, boxes / queries, nanoseconds / same_ideas])
    };
    println!("\n{}: {} queries; {}", class.name, class.queries, words(class));
    table::print(&HEADS, &contestants.iter().zip(measured).map(row).collect::<Vec<_>>());
    println!("taperhive_log by taperhive_answers: {:.2}", log / answers);
}

/// How the time goes up with the boxes of a query.
fn grow(classes: &[Class], library: &Library) {
    let rows = classes.iter().map(|class| {
        let [same, fast] = [by_hand::<Same>("same", class), by_hand::<Fast>("fastest", class)];
        let measured = by_turns(&mut [proved(class, library), same, fast], ROUNDS);
        let (queries, boxes) = (class.queries as f64, measured[0].boxes as f64);
        let mut row = table::growth(measured.map(|one| one.nanoseconds), queries, boxes);
        row.push(boxes / queries);
        (format!("{}, {} queries", class.name, class.queries), row)
    });
    println!("\ndeeper by their boxes, nanoseconds of the proved, and by hand of the same ideas and of the fastest");
    table::print(&GROWTH, &rows.collect::<Vec<_>>());
}

/// The answers by their words.
fn words(class: &Class) -> String {
    let (mut queue, mut told) = (vec![0; QUEUE_WORDS], vec![0; 8 * class.queries]);
    answers::<Fast>(&class.file, &mut queue, &mut told);
    let number = |word: u32| told.chunks_exact(8).filter(|told| told[1] == word).count();
    let words = ["MET", "CLEAR", "SPENT", "ROOM"].into_iter().zip(1..);
    words.map(|(name, word)| format!("{name} {} ", number(word))).collect()
}

fn proved<'a>(class: &'a Class, library: &'a Library) -> Contestant<'a> {
    called("proved, taperhive_answers", class, |file, queue, told| {
        library.answers(file, queue, told)
    })
}

fn by_hand<'a, S: ByHand + 'a>(name: &'static str, class: &'a Class) -> Contestant<'a> {
    called(name, class, answers::<S>)
}

/// A search through the whole file with one call.
fn called<'a>(
    name: &'static str,
    class: &'a Class,
    by: impl Fn(&[u8], &mut [u64], &mut [u32]) -> u32 + 'a,
) -> Contestant<'a> {
    let (mut queue, mut told) = (vec![0; QUEUE_WORDS], vec![0; 8 * class.queries]);
    let run = move || {
        by(black_box(&class.file), &mut queue, &mut told);
        boxes(&told)
    };
    Contestant { name, run: Box::new(run) }
}

/// The same into an answer file.
fn into_a_log<'a>(class: &'a Class, library: &'a Library) -> Contestant<'a> {
    let (mut queue, mut answers) = (vec![0; QUEUE_WORDS], logged::room(class.queries));
    let run = move || {
        library.log(black_box(&class.file), &mut queue, &mut answers);
        logged::boxes(&answers)
    };
    Contestant { name: "proved, taperhive_log", run: Box::new(run) }
}

/// The same by a call for each record, which clears the whole queue each time.
fn one_by_one<'a>(class: &'a Class, library: &'a Library) -> Contestant<'a> {
    let (mut queue, mut told) = (vec![0; QUEUE_WORDS], vec![0; 8 * class.queries]);
    let run = move || {
        for (n, told) in told.chunks_exact_mut(8).enumerate() {
            library.answer(black_box(&class.file), n, &mut queue, told);
        }
        boxes(&told)
    };
    Contestant { name: "proved, taperhive_answer a record", run: Box::new(run) }
}

fn boxes(told: &[u32]) -> u64 {
    told.chunks_exact(8).map(|told| u64::from(told[6])).sum()
}

fn floats<'a, Q: Borrow<Query>, I: Iterator<Item = Q>>(
    name: &'static str,
    queries: impl Fn() -> I + 'a,
) -> Contestant<'a> {
    let mut heap = BinaryHeap::with_capacity(QUEUE_WORDS);
    let mut checks = move |query: Q| u64::from(black_box(query.borrow().solve(&mut heap)).checks);
    let run = move || queries().map(&mut checks).sum();
    Contestant { name, run: Box::new(run) }
}

/// What clearing the queue once costs, by a plain loop.
fn clearing() {
    let mut queue = vec![0_u64; QUEUE_WORDS];
    let run = || {
        for word in black_box(&mut queue).iter_mut() {
            *word = 0;
        }
        1
    };
    let [once] = by_turns(&mut [Contestant { name: "clearing", run: Box::new(run) }], ROUNDS);
    println!("\nclearing {QUEUE_WORDS} words once: {:.0} ns", once.nanoseconds);
}
