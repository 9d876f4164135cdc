//! The writing side: records copied and trailers written into dirty buffers, at places of every sort.

use super::buffers::{After, Lent, Shifted};
use super::places::{absent, editions, record_bytes, rooms, some, Room};
use super::tally::Tally;
use super::{Case, Library};
use crate::edition::Edition;
use crate::file::{
    fetch, open, record_number, write_record, write_trailer, Opened, MOST_RECORDS, TRAILER_BYTES,
};
use crate::record::Record;
use crate::refusals::Refusal;
use crate::rng::Rng;

/// Records of a file that are copied by themselves.
const RECORDS: usize = 3;
/// Places tried where the record is refused at all of them, and counts tried at one place.
const FEW: usize = 4;
/// A trailer behind as many records as a file may hold needs much room: one file in so many.
const SELDOM: usize = 32;

/// Puts one case's records through the writers; what differs, a line each.
pub fn compare(library: &Library, case: &Case, tally: &mut Tally) -> Vec<String> {
    // With the flavour, as the files of one seed should differ in what is tried on them.
    let mut rng = Rng::new(case.seed, &format!("writes {}", case.flavour));
    let file = Shifted::new(&mut rng, &case.file);
    let count = open(&case.file).map_or(0, |opened| opened.count);
    let mut writer = Writer { library, file, count, tally, rng, differences: Vec::new() };
    writer.copies();
    writer.trailers();
    if writer.rng.one_in(SELDOM) {
        writer.trailers_of_most();
    }
    Edition::ALL.into_iter().for_each(|edition| writer.whole_file(edition));
    writer.differences
}

struct Writer<'a> {
    library: &'a Library,
    file: Shifted,
    /// Records of the file, none of a refused one.
    count: u32,
    tally: &'a mut Tally,
    rng: Rng,
    differences: Vec<String>,
}

impl Writer<'_> {
    /// Some records, and a number of a record that is not there.
    fn copies(&mut self) {
        let count = self.count as usize;
        for _ in 0..RECORDS.min(count) {
            let n = self.rng.below(count);
            self.copies_of(n);
        }
        let absent = absent(&mut self.rng, count);
        self.copies_of(absent);
    }

    /// Every place where the record can be written, else a few: nothing may change at any.
    fn copies_of(&mut self, n: usize) {
        for edition in editions(&mut self.rng) {
            let size = record_bytes(&mut self.rng, edition);
            let more = 1 + self.rng.below(300);
            let mut rooms = rooms(&mut self.rng, size, more);
            let fits = copied(self.file.bytes(), n, edition, &mut vec![0; size], 0).is_ok();
            if !fits {
                rooms = some(&mut self.rng, &rooms, FEW);
            }
            rooms.into_iter().for_each(|room| self.copy(n, edition, room));
        }
    }

    fn copy(&mut self, n: usize, edition: u8, room: Room) {
        let (mut lent, mut must) = self.lend(room.length);
        let number = number(copied(self.file.bytes(), n, edition, &mut must, room.at));
        let code = self.library.copy(self.file.bytes(), n, edition, lent.slice(), room.at);
        self.tally.copy(number);
        let call = format!("taperhive_copy, record {n}, edition {edition}, {room:?}");
        self.judge_code(&call, code, number);
        self.judge_bytes(&call, &lent, &must);
    }

    /// Behind room for a few records, each place with a few of the counts that matter there.
    fn trailers(&mut self) {
        for edition in editions(&mut self.rng) {
            let size = record_bytes(&mut self.rng, edition);
            let rest = self.rng.pick(&[0, 0, 1, size - 1]);
            let more = (size * self.rng.below(4) + rest).max(1);
            let most = size * MOST_RECORDS as usize;
            let far = [most - 1, most, most + 1].map(|at| Room { length: TRAILER_BYTES, at });
            for room in [rooms(&mut self.rng, TRAILER_BYTES, more), far.to_vec()].concat() {
                let counts = counts(room.at / size);
                let always = room.at == more || room.at.abs_diff(most) < 2;
                let few = some(&mut self.rng, &counts, FEW);
                let counts = if always { counts.to_vec() } else { few };
                counts.into_iter().for_each(|count| self.trailer(edition, count, room));
            }
        }
    }

    /// Behind as many records as a file may hold, and one byte before that place.
    fn trailers_of_most(&mut self) {
        for edition in Edition::ALL {
            let at = edition.records_bytes(MOST_RECORDS) - self.rng.below(2);
            let length = at + TRAILER_BYTES + self.rng.below(3);
            for count in [MOST_RECORDS, MOST_RECORDS + 1] {
                self.trailer(edition.number(), count, Room { length, at });
            }
        }
    }

    fn trailer(&mut self, edition: u8, count: u32, room: Room) {
        let (mut lent, mut must) = self.lend(room.length);
        let number = number(write_trailer(&mut must, room.at, edition, count));
        let code = self.library.trailer(lent.slice(), room.at, edition, count);
        self.tally.trailer(number);
        let call = format!("taperhive_trailer, edition {edition}, {count} records, {room:?}");
        self.judge_code(&call, code, number);
        self.judge_bytes(&call, &lent, &must);
    }

    /// Every record that the edition can hold, one behind the other, and a trailer behind them.
    fn whole_file(&mut self, edition: Edition) {
        let lead = self.rng.pick(&[0, 0, 1, 115, 300]);
        let beyond = self.rng.pick(&[0, 0, 1, 40]);
        let (mut lent, mut must) =
            self.lend(lead + edition.records_bytes(self.count) + TRAILER_BYTES + beyond);
        let mut records = Vec::new();
        for n in 0..self.count {
            let at = lead + edition.records_bytes(records.len() as u32);
            records.extend(self.put(n, edition, at, lent.slice(), &mut must));
        }
        let count = records.len() as u32;
        let at = lead + edition.records_bytes(count);
        let number = number(write_trailer(&mut must, at, edition.number(), count));
        let code = self.library.trailer(lent.slice(), at, edition.number(), count);
        self.tally.trailer(number);
        self.tally.written();
        let call = format!("a file of edition {} written from byte {lead} on", edition.number());
        self.judge_code(&format!("{call}, its trailer"), code, number);
        self.judge_bytes(&call, &lent, &must);
        let opened = Opened { edition, first: lead, count };
        if !reads(&lent.slice()[..at + TRAILER_BYTES], opened, &records) {
            self.differences.push(format!("{call}: it does not read as the records copied"));
        }
    }

    /// One record of a whole file into both buffers; the record where it is accepted.
    fn put(
        &mut self,
        n: u32,
        edition: Edition,
        at: usize,
        lent: &mut [u8],
        must: &mut [u8],
    ) -> Option<Record> {
        let (file, edition) = (self.file.bytes(), edition.number());
        let number = number(copied(file, n as usize, edition, must, at));
        let code = self.library.copy(file, n as usize, edition, lent, at);
        let record = fetch(file, n).ok().filter(|_| number == 0);
        self.tally.copy(number);
        let call = || format!("a file of edition {edition} written, record {n} at {at}");
        if code != number {
            self.judge_code(&call(), code, number);
        }
        record
    }

    /// A lent buffer that holds anything, and what it holds.
    fn lend(&mut self, length: usize) -> (Lent<u8>, Vec<u8>) {
        let mut lent = Lent::new(self.rng.draw(), length);
        let found = lent.slice().to_vec();
        (lent, found)
    }

    fn judge_code(&mut self, call: &str, code: u32, number: u32) {
        if code != number {
            self.differences.push(format!("{call}: returned {code} and must return {number}"));
        }
    }

    /// Every byte of the buffer and around it.
    fn judge_bytes(&mut self, call: &str, lent: &Lent<u8>, must: &[u8]) {
        if let Some(difference) = lent.difference(&After::Begins(must)) {
            self.differences.push(format!("{call}: the buffer's {difference}"));
        }
    }
}

/// Record n of the file into a buffer: fetching's refusals, then writing's.
fn copied(file: &[u8], n: usize, edition: u8, buffer: &mut [u8], at: usize) -> Result<(), Refusal> {
    let record = fetch(file, record_number(n)).map_err(|refused| refused.refusal)?;
    write_record(buffer, at, edition, &record)
}

fn number(result: Result<(), Refusal>) -> u32 {
    result.map_or_else(Refusal::number, |()| 0)
}

/// Counts that matter at a place that so many records fit before.
pub fn counts(fit: usize) -> [u32; 8] {
    let fit = u32::try_from(fit).unwrap_or(MOST_RECORDS);
    [0, 1, fit, fit.saturating_add(1), MOST_RECORDS, MOST_RECORDS + 1, 1 << 31, u32::MAX]
}

/// True where the bytes are a file that opens so, to exactly these records.
fn reads(file: &[u8], opened: Opened, records: &[Record]) -> bool {
    open(file) == Ok(opened)
        && opened.count as usize == records.len()
        && (0..).zip(records).all(|(n, record)| fetch(file, n).as_ref() == Ok(record))
}
