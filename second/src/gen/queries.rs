//! Cheap queries with their answers, as plain numbers for a checker that reads text.

use super::bad::{refused, spoil_cap, spoil_separation};
use super::caps::capped;
use super::degenerate::degenerate;
use super::dice::Dice;
use super::far;
use super::shapes::{extreme, full, tiny};
use super::tuned::brick;
use crate::edition::Edition;
use crate::record::Record;
use crate::refusals::MOST_WORDS;
use crate::search::{search, search_traced, Answer};
use crate::told::told;

/// The most boxes that a query may need.
const CHEAP: u32 = 60;

/// So many lines: words, the record's fields, then the answer's seven numbers by the edition's range.
pub fn queries(seed: u64, number: usize, edition: Edition) -> String {
    let mut rng = Dice::new(seed, "queries", edition);
    (0..number).map(|_| line(&mut rng)).collect()
}

fn line(rng: &mut Dice) -> String {
    let (words, mut record) = if rng.one_in(6) { refused_query(rng) } else { cheap_query(rng) };
    record.id = rng.pick(&[0, 1, 77, u32::MAX]);
    let record = far::moved_out(rng, record);
    let answer = told(&search(&record, rng.range(), words)).map(i64::from);
    let numbers = fields(words, &record).into_iter().chain(answer);
    let numbers: Vec<String> = numbers.map(|number| number.to_string()).collect();
    numbers.join(" ") + "\n"
}

fn fields(words: usize, record: &Record) -> Vec<i64> {
    let bytes = [record.kind, record.flags, record.byte2, record.byte3];
    let [x, y, z] = record.separations;
    let numbers = [record.id, x, y, z, record.tolerance, record.budget, record.cap];
    let coordinates = record.start.iter().chain(&record.end).flatten();
    let mut fields = vec![words as i64];
    fields.extend(bytes.map(i64::from));
    fields.extend(numbers.map(i64::from));
    fields.extend(coordinates.map(|coordinate| i64::from(*coordinate)));
    fields
}

/// Refusals 1 to 6 and 22, 7, or both; the places that edition 1 has not by themselves too.
fn refused_query(rng: &mut Dice) -> (usize, Record) {
    let bad_words = rng.pick(&[0, 1, MOST_WORDS + 1]);
    let good_words = rng.pick(&[2, 64, 4096, MOST_WORDS]);
    let mut sound = cheap(rng).0;
    match rng.below(6) {
        0 => return (bad_words, sound),
        1 => return (bad_words, refused(rng)),
        // 22 comes before 7.
        2 => {
            spoil_cap(rng, &mut sound);
            return (rng.pick(&[good_words, bad_words]), sound);
        }
        3 => spoil_separation(rng, &mut sound),
        _ => return (good_words, refused(rng)),
    }
    (good_words, sound)
}

/// A cheap record and a queue, often one around its exact need.
fn cheap_query(rng: &mut Dice) -> (usize, Record) {
    let (record, peak) = cheap(rng);
    let words = match rng.below(4) {
        0 => 4096,
        1 => rng.pick(&[2, 3, 7, 8, 31, MOST_WORDS]),
        _ => (2 * peak - 2 + rng.below(4)).max(2),
    };
    (words, record)
}

/// A record that needs few boxes, and the boxes of its largest level.
fn cheap(rng: &mut Dice) -> (Record, usize) {
    let base = match rng.below(9) {
        0..=3 => tiny(rng),
        4 | 5 => degenerate(rng),
        6 => full(rng),
        7 => extreme(rng),
        _ => brick(rng, CHEAP),
    };
    let whole = Record { budget: CHEAP + 1, ..base };
    let mut record = if rng.one_in(3) { capped(rng, whole) } else { whole };
    let (answer, trace) = search_traced(&record, rng.range(), MOST_WORDS);
    if dull(&answer) && !rng.one_in(4) {
        return cheap(rng);
    }
    let count = answer.count();
    record.budget = if count > CHEAP || rng.one_in(4) {
        1 + rng.below(CHEAP as usize) as u32
    } else {
        rng.pick(&[count, count + 1, (count - 1).max(1), 1000, 1_000_000])
    };
    (record, trace.peak)
}

/// Answers at the first box are many by chance; most are left out.
fn dull(answer: &Answer) -> bool {
    answer.count() <= 1
}
