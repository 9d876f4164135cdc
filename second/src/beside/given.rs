//! Pairs given in numbers: a file's records, and those with one number changed, written and asked without the file.

use super::buffers::{After, Lent};
use super::expected::{answered, SPACE, TOLD};
use super::judged::{differences, Must};
use super::places::{editions, record_bytes, rooms, some};
use super::tally::Tally;
use super::{Case, Library, LONG};
use crate::edition::{Edition, Range};
use crate::file::{open, record_at, write_record};
use crate::record::Record;
use crate::refusals::Refusal;
use crate::rng::Rng;
use crate::search::search;
use crate::told::told_of;

/// Records of a file that are given in numbers, and rooms tried for each edition of one.
const RECORDS: usize = 3;
const ROOMS: usize = 5;
/// Numbers of four points at the start and four at the end.
const POINTS: usize = 24;

/// Puts some of one case's records through both functions; what differs, a line each.
pub fn compare(library: &Library, case: &Case, tally: &mut Tally) -> Vec<String> {
    let rng = Rng::new(case.seed, &format!("given {}", case.flavour));
    let count = open(&case.file).map_or(0, |opened| opened.count) as usize;
    let mut given = Given { library, words: &case.words, tally, rng, differences: Vec::new() };
    for _ in 0..RECORDS.min(count) {
        let n = given.rng.below(count) as u32;
        let (record, _) = record_at(&case.file, n).expect("n is below the count");
        given.record(record);
    }
    given.differences
}

struct Given<'a> {
    library: &'a Library,
    words: &'a [usize],
    tally: &'a mut Tally,
    rng: Rng,
    differences: Vec<String>,
}

impl Given<'_> {
    /// One record in every edition, and in none.
    fn record(&mut self, record: Record) {
        let record = self.changed(record);
        for edition in editions(&mut self.rng) {
            self.writes(edition, &record);
            self.pairs(edition, &record);
        }
    }

    /// Bytes 2 and 3 cannot be given; a number is another one now and then.
    fn changed(&mut self, record: Record) -> Record {
        let mut record = Record { byte2: 0, byte3: 0, ..record };
        let any = self.rng.draw() as u32;
        match self.rng.below(24) {
            0 => record.kind = self.rng.pick(&[0, 1, 2, 3, 255]),
            1 => record.flags = self.rng.pick(&[0, 1, 2, 3, 255]),
            2 => record.id = any,
            3 => record.cap = self.rng.pick(&[1, 1 << 20, any]),
            4 => record.separations.rotate_left(1),
            5 => record.separations[self.rng.below(3)] = any % 70_000,
            6 => record.tolerance = self.rng.pick(&[15, 16, 63, 64, 1 << 20, any]),
            7 => record.budget = self.rng.pick(&[0, 1, 7, 1_000_001]),
            8 => record.start[self.rng.below(4)][self.rng.below(3)] = any as i32,
            9 => record.end[self.rng.below(4)][self.rng.below(3)] = any as i32 / 1_000,
            10 => std::mem::swap(&mut record.start, &mut record.end),
            _ => {}
        }
        record
    }

    /// The record's points as numbers, with any others behind them, or too few.
    fn numbers(&mut self, record: &Record) -> Lent<i32> {
        let length =
            self.rng.pick(&[POINTS, POINTS, POINTS, POINTS + 1, 2 * POINTS, POINTS - 1, 0]);
        let mut numbers: Lent<i32> = Lent::new(self.rng.draw(), length);
        let points = record.start.iter().chain(&record.end).flatten();
        numbers.slice().iter_mut().zip(points).for_each(|(number, point)| *number = *point);
        numbers
    }

    fn writes(&mut self, edition: u8, record: &Record) {
        let size = record_bytes(&mut self.rng, edition);
        let more = 1 + self.rng.below(300);
        let rooms = rooms(&mut self.rng, size, more);
        for room in some(&mut self.rng, &rooms, ROOMS) {
            let points = self.numbers(record);
            let numbers = points.read().len();
            let mut lent: Lent<u8> = Lent::new(self.rng.draw(), room.length);
            let mut must = lent.slice().to_vec();
            let written = if numbers < POINTS {
                Err(Refusal::Space)
            } else {
                write_record(&mut must, room.at, edition, record)
            };
            let number = written.map_or_else(Refusal::number, |()| 0);
            let code = self.library.write(lent.slice(), room.at, edition, record, points.read());
            self.tally.given(number);
            let call = format!(
                "taperhive_write, edition {edition}, {numbers} numbers, {room:?}, {record:?}"
            );
            if code != number {
                self.differences.push(format!("{call}: returned {code} and must return {number}"));
            }
            if let Some(difference) = lent.difference(&After::Begins(&must)) {
                self.differences.push(format!("{call}: the buffer's {difference}"));
            }
        }
    }

    /// With one of the file's queue lengths, and room enough, more or too little.
    fn pairs(&mut self, edition: u8, record: &Record) {
        let lengths: Vec<usize> =
            self.words.iter().copied().filter(|words| *words <= LONG).collect();
        let words = if lengths.is_empty() { 2 } else { self.rng.pick(&lengths) };
        let points = self.numbers(record);
        let lent = self.rng.pick(&[TOLD, TOLD, TOLD, TOLD + 1, TOLD + 8, TOLD - 1, 0]);
        let must = expected(edition, record, points.read().len(), words, lent);
        let (mut queue, mut told): (Lent<u64>, Lent<u32>) =
            (Lent::new(self.rng.draw(), words), Lent::new(self.rng.draw(), lent));
        let code = self.library.pair(edition, record, points.read(), queue.slice(), told.slice());
        self.tally.call(must.as_ref().err().copied());
        if let Ok(told) = &must {
            self.tally.pair(told);
        }
        let numbers = points.read().len();
        let call = format!(
            "taperhive_pair, edition {edition}, {numbers} numbers, {words} words, told of {lent}, {record:?}"
        );
        let any = must.as_ref().is_ok_and(answered);
        let must = must.map(Vec::from);
        let must = Must { told: &must, answered: any };
        self.differences.extend(differences(&call, code, &must, &queue, &told));
    }
}

/// What must be told of a pair, or the number that refuses the call: 10, then 14.
fn expected(
    edition: u8,
    record: &Record,
    numbers: usize,
    words: usize,
    lent: usize,
) -> Result<[u32; TOLD], u32> {
    Edition::of(edition).map_err(Refusal::number)?;
    if numbers < POINTS || lent < TOLD {
        return Err(SPACE);
    }
    Ok(told_of(record.id, &search(record, Range::of(edition), words)))
}
