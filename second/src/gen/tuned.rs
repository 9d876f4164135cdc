//! Records aimed at the exact count of a budget and at the exact need of a queue.

use super::as_in_a_file;
use super::degenerate::degenerate;
use super::dice::Dice;
use super::shapes::{extreme, full, tiny};
use crate::edition::Range;
use crate::file::file_of;
use crate::record::{Record, EDGE_EDGE};
use crate::refusals::MOST_WORDS;
use crate::search::search_traced;

/// Budgets at a count where something happens, one below and one above.
pub fn budget(rng: &mut Dice) -> Vec<u8> {
    some_at_a_time(rng, |rng| {
        let base = any_shape(rng);
        budgets(rng, base)
    })
}

/// A file of a dozen records or more, which are made a few together.
pub fn some_at_a_time(rng: &mut Dice, make: fn(&mut Dice) -> Vec<Record>) -> Vec<u8> {
    let enough = 12 + rng.below(20);
    let mut records = Vec::new();
    while records.len() < enough {
        records.extend(make(rng));
    }
    file_of(rng.edition, &as_in_a_file(rng, records))
}

/// The record with budgets at such a count of its own.
pub fn budgets(rng: &mut Dice, base: Record) -> Vec<Record> {
    let count = telling_count(rng, &base);
    let budgets = [count - 1, count, count + 1].into_iter().filter(|budget| *budget > 0);
    budgets.map(|budget| Record { budget, ..base }).collect()
}

pub fn any_shape(rng: &mut Dice) -> Record {
    match rng.below(8) {
        0..=2 => tiny(rng),
        3 | 4 => degenerate(rng),
        5 => full(rng),
        6 => brick(rng, 400),
        _ => extreme(rng),
    }
}

/// The answer's count, or the count at which a level ends.
fn telling_count(rng: &mut Dice, base: &Record) -> u32 {
    let (answer, trace) = search_traced(&Record { budget: 400, ..*base }, rng.range(), 4096);
    if trace.level_ends.is_empty() || !rng.one_in(3) {
        return answer.count();
    }
    rng.pick(&trace.level_ends)
}

/// Levels of several boxes, and one record whose largest level is about 2,048 boxes.
pub fn queue(rng: &mut Dice) -> Vec<u8> {
    let count = 9 + rng.below(15);
    let mut records: Vec<Record> = (0..count).map(|_| crowded(rng)).collect();
    // Among the first few, where the lengths worth trying are taken from.
    let place = rng.below(3);
    records.insert(place, heavy(rng));
    file_of(rng.edition, &as_in_a_file(rng, records))
}

/// A record with a level of three boxes at least.
pub fn crowded(rng: &mut Dice) -> Record {
    loop {
        let budget = rng.between(20, 500) as u32;
        let record = if rng.one_in(3) { brick(rng, budget) } else { any_shape(rng) };
        // A large budget is meant for the usual queue; a longer one could let it run on.
        let record = Record { budget: record.budget.min(2000), ..record };
        if peak(&record, rng.range()) >= 3 {
            return record;
        }
    }
}

/// Boxes of the largest level when the queue leaves room.
pub fn peak(record: &Record, range: Range) -> usize {
    search_traced(record, range, MOST_WORDS).1.peak
}

/// Around the half of 4,096 words, just enough or just too much for it.
fn heavy(rng: &mut Dice) -> Record {
    let wanted = rng.pick(&[(1900, 2048), (2049, 2300)]);
    let family: fn(&mut Dice) -> Record = rng.pick(&[|rng| brick(rng, 5000), parallel]);
    let mut record = family(rng);
    for _ in 0..6 {
        if (wanted.0..=wanted.1).contains(&peak(&record, rng.range())) {
            break;
        }
        record = family(rng);
    }
    // A separation of its own may reach the first corner, and then there is no second level.
    while rng.edition.is_by_axis() && peak(&record, rng.range()) < 3 {
        record = family(rng);
    }
    record
}

/// Parallel edges that meet along a line, whose levels are of many sizes.
fn parallel(rng: &mut Dice) -> Record {
    let least = rng.range().least_tolerance;
    // With a greater least tolerance everything is larger, so that the levels are as large.
    let scale = (least / Range::SHORTER.least_tolerance) as i32;
    let length = scale * rng.between(1800, 2400);
    let height = scale * rng.between(900, 1100);
    let shift = scale * rng.between(0, 40);
    let still = [[shift, 0, 0], [shift + length, 0, 0]];
    let moving = |z: i32| [[0, 0, z], [length, 0, z], still[0], still[1]];
    Record {
        kind: EDGE_EDGE,
        flags: 0,
        byte2: 0,
        byte3: 0,
        id: 0,
        // A wider band of contact makes larger levels, by a few boxes at a time.
        separations: rng.separations(|rng| (scale * rng.between(0, 24)) as u32),
        tolerance: least + rng.below(10) as u32,
        budget: 9000,
        cap: 0,
        start: moving(height),
        end: moving(-height),
    }
}

/// Crossing edges where F is one axis a parameter, so that nearly every box survives.
pub fn brick(rng: &mut Dice, budget: u32) -> Record {
    let d = rng.pick(&[64, 100, 999, 4096, 30_000]);
    let spread = rng.pick(&[0, 0, 1, d / 8, d / 3]);
    let mut span = || rng.pick(&[2 * d, d, d / 2]) + rng.between(0, spread);
    let (across, along) = (span(), span());
    let from = d + 1 + rng.between(0, spread);
    let to = -d - rng.between(0, spread);
    let (low, left) = (rng.pick(&[-d, -across / 2]), rng.pick(&[-d, -along / 2]));
    let still = [[0, 0, -left], [0, 0, -left - along]];
    let moving = |x: i32| [[x, low, 0], [x, low + across, 0], still[0], still[1]];
    let halvings = 1 + rng.below(5);
    let turn = rng.below(3);
    // Turning the axes alike in every point changes nothing but which axis is which.
    let turned = |x: i32| moving(x).map(|p| [p[turn], p[(turn + 1) % 3], p[(turn + 2) % 3]]);
    let least = rng.range().least_tolerance;
    Record {
        kind: EDGE_EDGE,
        flags: 0,
        byte2: 0,
        byte3: 0,
        id: 0,
        separations: rng.separations(|rng| rng.around(d as u32)),
        tolerance: least.max((((2 * d) >> halvings) + rng.between(0, 3)) as u32),
        budget,
        cap: 0,
        start: turned(from),
        end: turned(to),
    }
}
