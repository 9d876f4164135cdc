//! The generators: what each flavour promises.

mod blocks;
mod bodies;
mod caps;
#[path = "../common/mod.rs"]
mod common;
mod edition2;
mod edition3;

use common::{ranged, records};
use second::edition::{Edition, Range};
use second::file::{fetch, open};
use second::gen::{flavours, generate, queries::queries, words::words};
use second::record::Record;
use second::refusals::Refusal;
use second::search::{search, search_traced, Answer};
use second::text::sweep;

const SEEDS: u64 = 30;

fn files(flavour: &str) -> Vec<Vec<u8>> {
    common::files(flavour, SEEDS)
}

/// The flavours of these names in every edition.
fn each(names: &[&str]) -> Vec<String> {
    names.iter().flat_map(|name| ["", "2", "3"].map(|number| format!("{name}{number}"))).collect()
}

/// The numbers 8 to 12 that opening the files of a flavour gives, 0 for an opened one.
fn opened(flavour: &str) -> Vec<u32> {
    let refusal = |file: &Vec<u8>| open(file).map_or_else(Refusal::number, |_| 0);
    let mut numbers: Vec<u32> = files(flavour).iter().map(refusal).collect();
    numbers.sort();
    numbers.dedup();
    numbers
}

fn is_room(answer: Answer) -> bool {
    matches!(answer, Answer::Room(_))
}

#[test]
fn seed_and_flavour_decide_the_file() {
    for flavour in flavours() {
        assert_eq!(generate(3, flavour), generate(3, flavour));
        assert!((0..SEEDS).any(|seed| generate(seed, flavour) != generate(3, flavour)));
    }
    assert_ne!(generate(3, "tiny"), generate(3, "full"));
    assert_eq!(generate(3, "no such flavour"), None);
}

#[test]
fn shapes_are_valid_files_of_valid_records() {
    for flavour in each(&["tiny", "full", "degenerate", "extreme", "budget", "queue"]) {
        for file in files(&flavour) {
            let count = open(&file).unwrap().count;
            assert!((10..=40).contains(&count));
            assert!((0..count).all(|n| fetch(&file, n).is_ok()));
        }
    }
}

#[test]
fn shapes_bring_every_word_but_floor() {
    let mut seen = [0; 3];
    for flavour in each(&["tiny", "full", "degenerate", "extreme"]) {
        for (record, range) in files(&flavour).iter().flat_map(|file| ranged(file)) {
            match search(&record, range, 4096) {
                Answer::Met(_) => seen[0] += 1,
                Answer::Clear { .. } => seen[1] += 1,
                Answer::Spent(_) => seen[2] += 1,
                other => panic!("{other:?}"),
            }
        }
        assert!(seen.iter().all(|number| *number >= 20), "{flavour} {seen:?}");
        seen = [0; 3];
    }
    for queue in each(&["queue"]).iter().map(|name| files(name)) {
        let mut queries = queue.iter().flat_map(|file| ranged(file));
        assert!(queries.any(|(record, range)| is_room(search(&record, range, 4096))));
    }
}

#[test]
fn budgets_stand_on_both_sides_of_an_answer() {
    let mut turns = 0;
    for file in each(&["budget"]).iter().flat_map(|name| files(name)) {
        for pair in ranged(&file).windows(2) {
            let [(one, range), (other, _)] = pair else { panic!("two records") };
            let spent = |record| matches!(search(record, *range, 4096), Answer::Spent(_));
            // Each is moved out by itself in edition 3.
            let Record { id, start, end, .. } = *other;
            let next = Record { budget: one.budget + 1, id, start, end, ..*one };
            turns += usize::from(next == *other && spent(one) && !spent(other));
        }
    }
    assert!(turns >= 3 * SEEDS as usize, "{turns}");
}

#[test]
fn peak_is_the_exact_need_of_the_queue() {
    let queues = each(&["queue"]).into_iter().flat_map(|name| files(&name));
    for (record, range) in queues.flat_map(|file| ranged(&file)) {
        let (answer, trace) = search_traced(&record, range, 1 << 20);
        assert!(trace.peak >= 2);
        assert_eq!(search(&record, range, 2 * trace.peak), answer);
        assert!(is_room(search(&record, range, 2 * trace.peak - 1)));
    }
}

#[test]
fn greatest_widths_are_among_the_extreme() {
    let wide = |record: &Record, m: i32| {
        (0..3).any(|axis| {
            let starts = [0, 1, 2, 3].map(|n| record.start[n][axis]);
            let ends = [0, 1, 2, 3].map(|n| -record.end[n][axis]);
            starts == ends && (starts == [m, m, -m, -m] || starts == [-m, -m, m, m])
        })
    };
    for (flavour, most) in
        [("extreme", 1_048_576), ("extreme2", 1_048_576), ("extreme3", 2_097_152)]
    {
        let records = files(flavour).into_iter().flat_map(|file| records(&file));
        assert!(records.filter(|record| wide(record, most)).count() > 20);
    }
}

#[test]
fn refusals_are_all_there() {
    for flavour in each(&["refusals"]) {
        let mut seen = [0; 23];
        for (record, range) in files(&flavour).iter().flat_map(|file| ranged(file)) {
            if let Answer::Refused(refusal) = search(&record, range, 4096) {
                seen[refusal.number() as usize] += 1;
            }
        }
        assert!(seen[1..7].iter().all(|number| *number > 0), "{flavour} {seen:?}");
        assert_eq!(seen[22] > 0, flavour != "refusals");
    }
}

#[test]
fn damage_is_of_every_sort() {
    assert_eq!(opened("damaged"), [0, 9, 10, 11, 12]);
    assert_eq!(opened("truncated"), [0, 8, 9, 12]);
    assert_eq!(opened("empty"), [0, 8, 12]);
    assert_eq!(opened("leading"), [0]);
    let of_three = [
        ("damaged3", &[0, 9, 10, 11, 12][..]),
        ("truncated3", &[0, 9, 12]),
        ("empty3", &[0, 8, 12]),
    ];
    for (flavour, numbers) in of_three {
        assert!(numbers.iter().all(|number| opened(flavour).contains(number)), "{flavour}");
    }
}

#[test]
fn sizes_are_exact() {
    let many = generate(1, "many").unwrap();
    assert_eq!(open(&many).unwrap().count, 4096);
    assert_eq!(sweep(&many, 4096), "FILE 15\n");
    let most = generate(1, "most").unwrap();
    assert_eq!(open(&most).unwrap().count, 564);
    assert!(sweep(&most, 4096).contains("TOTAL 564 "));
    for file in files("edge65536") {
        assert_eq!(file.len(), 65_536);
    }
    assert!(opened("edge65536").contains(&0));
    for file in files("edge65537") {
        assert_eq!(file.len(), 65_537);
        assert_eq!(sweep(&file, 4096), "FILE 15\n");
    }
}

#[test]
fn lengths_worth_trying() {
    for flavour in flavours() {
        let lengths = words(5, flavour).unwrap();
        assert!([0, 1, 2, 3, 4096].iter().all(|length| lengths.contains(length)));
        assert!(lengths.len() <= 16);
        assert!(lengths.windows(2).all(|pair| pair[0] < pair[1]));
    }
    let first = fetch(&generate(5, "queue").unwrap(), 0).unwrap();
    let need = 2 * search_traced(&first, Range::SHORTER, 1 << 20).1.peak;
    let lengths = words(5, "queue").unwrap();
    assert!((need - 2..=need + 1).all(|length| lengths.contains(&length)));
    assert_eq!(words(5, "no such flavour"), None);
}

/// The record and the queue that a line of numbers tells.
fn query(numbers: &[i64]) -> (usize, Record) {
    let point = |from: usize| [0, 1, 2].map(|axis| numbers[from + axis] as i32);
    let record = Record {
        kind: numbers[1] as u8,
        flags: numbers[2] as u8,
        byte2: numbers[3] as u8,
        byte3: numbers[4] as u8,
        id: numbers[5] as u32,
        separations: [6, 7, 8].map(|n| numbers[n] as u32),
        tolerance: numbers[9] as u32,
        budget: numbers[10] as u32,
        cap: numbers[11] as u32,
        start: [12, 15, 18, 21].map(point),
        end: [24, 27, 30, 33].map(point),
    };
    (numbers[0] as usize, record)
}

#[test]
fn queries_tell_the_answer_and_bring_every_sort() {
    [Edition::Two, Edition::Three].into_iter().for_each(tell_the_answer_and_bring_every_sort);
}

fn tell_the_answer_and_bring_every_sort(edition: Edition) {
    let (mut words_seen, mut refusals_seen) = ([0; 6], [0; 23]);
    for line in queries(1, 2000, edition).lines() {
        let numbers: Vec<i64> = line.split(' ').map(|n| n.parse().unwrap()).collect();
        assert_eq!(numbers.len(), 43);
        let (words, record) = query(&numbers);
        let [t, u, v, excess, count] = [37, 38, 39, 40, 41].map(|n| numbers[n] as u32);
        let word = ["REFUSED", "MET", "CLEAR", "SPENT", "ROOM", "FLOOR"][numbers[36] as usize];
        let mut expected = format!("9 {word} {t} {u} {v} {excess} {count}\n");
        if word == "REFUSED" {
            expected = format!("9 REFUSED {}\n", numbers[42]);
        }
        assert_eq!(second::text::line(9, &search(&record, edition.range(), words)), expected);
        assert!(count <= 60);
        words_seen[numbers[36] as usize] += 1;
        refusals_seen[numbers[42] as usize] += 1;
    }
    assert!(words_seen[..5].iter().all(|number| *number >= 100), "{words_seen:?}");
    let refused = [1, 2, 3, 4, 5, 6, 7, 22];
    assert!(refused.iter().all(|number| refusals_seen[*number] >= 5), "{refusals_seen:?}");
}
