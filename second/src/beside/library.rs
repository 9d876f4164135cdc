//! The library under test, called with dirty buffers of every length.

use super::buffers::{Lent, Shifted};
use super::expected::{answered, Expected, TOLD};
use super::functions::{Answers, Copied, Count, OneAnswer, Pair, Trailer, TwoBodies, Why, Write};
use super::functions::{BoundedWalk, Bounds, Replace};
use super::functions::{Log, LogCount, LogRead, LogTrailer, LogWrite, Matched};
use super::judged::{differences, Must};
use super::places::absent;
use super::tally::Tally;
use super::{Case, LONG};
use crate::bodies::Bodies;
use crate::edition::Edition;
use crate::record::Record;
use crate::rng::Rng;
use crate::why::Parts;

/// The C functions under test.
#[derive(Clone, Copy)]
pub struct Library {
    pub answer: OneAnswer,
    pub answers: Answers,
    pub count: Count,
    pub copy: Copied,
    pub trailer: Trailer,
    pub write: Write,
    pub pair: Pair,
    pub bodies: TwoBodies,
    pub why: Why,
    pub bounds: Bounds,
    pub walk: BoundedWalk,
    pub replace: Replace,
    pub log_write: LogWrite,
    pub log_trailer: LogTrailer,
    pub log_read: LogRead,
    pub log_count: LogCount,
    pub matched: Matched,
    pub log: Log,
}

impl Library {
    pub fn answers(&self, file: &[u8], queue: &mut [u64], told: &mut [u32]) -> u32 {
        let (words, lent) = (queue.len(), told.len());
        // Sound: every pointer comes from a slice of the length beside it.
        unsafe {
            let (queue, told) = (queue.as_mut_ptr(), told.as_mut_ptr());
            (self.answers)(file.as_ptr(), file.len(), queue, words, told, lent)
        }
    }

    pub fn answer(&self, file: &[u8], n: usize, queue: &mut [u64], told: &mut [u32]) -> u32 {
        let (words, lent) = (queue.len(), told.len());
        // Sound: as above.
        unsafe {
            let (queue, told) = (queue.as_mut_ptr(), told.as_mut_ptr());
            (self.answer)(file.as_ptr(), file.len(), n, queue, words, told, lent)
        }
    }

    pub fn why(
        &self,
        file: &[u8],
        n: usize,
        point: Parts,
        queue: &mut [u64],
        told: &mut [u32],
    ) -> u32 {
        let ([t, u, v], words, lent) = (point, queue.len(), told.len());
        // Sound: as above; the parts may be any numbers.
        unsafe {
            let (queue, told) = (queue.as_mut_ptr(), told.as_mut_ptr());
            (self.why)(file.as_ptr(), file.len(), n, t, u, v, queue, words, told, lent)
        }
    }

    pub fn count(&self, file: &[u8], count: &mut [u32]) -> u32 {
        // Sound: as above.
        unsafe { (self.count)(file.as_ptr(), file.len(), count.as_mut_ptr(), count.len()) }
    }

    pub fn copy(&self, file: &[u8], n: usize, edition: u8, out: &mut [u8], at: usize) -> u32 {
        let (lent, out) = (out.len(), out.as_mut_ptr());
        // Sound: as above; the place may be any number.
        unsafe { (self.copy)(file.as_ptr(), file.len(), n, edition, out, lent, at) }
    }

    pub fn trailer(&self, out: &mut [u8], at: usize, edition: u8, count: u32) -> u32 {
        // Sound: as above.
        unsafe { (self.trailer)(out.as_mut_ptr(), out.len(), at, edition, count) }
    }

    pub fn write(&self, out: &mut [u8], at: usize, edition: u8, r: &Record, points: &[i32]) -> u32 {
        let (lent, out, [x, y, z]) = (out.len(), out.as_mut_ptr(), r.separations);
        let (kind, flags, id) = (r.kind, r.flags, r.id);
        let (tolerance, budget, cap) = (r.tolerance, r.budget, r.cap);
        let (from, numbers) = (points.as_ptr(), points.len());
        // Sound: as above.
        unsafe {
            (self.write)(
                out, lent, at, edition, kind, flags, id, x, y, z, tolerance, budget, cap, from,
                numbers,
            )
        }
    }

    pub fn pair(
        &self,
        edition: u8,
        r: &Record,
        points: &[i32],
        queue: &mut [u64],
        told: &mut [u32],
    ) -> u32 {
        let (kind, flags, id, [x, y, z]) = (r.kind, r.flags, r.id, r.separations);
        let (tolerance, budget, cap) = (r.tolerance, r.budget, r.cap);
        let (from, numbers) = (points.as_ptr(), points.len());
        let (words, lent) = (queue.len(), told.len());
        // Sound: as above.
        unsafe {
            let (queue, told) = (queue.as_mut_ptr(), told.as_mut_ptr());
            (self.pair)(
                edition, kind, flags, id, x, y, z, tolerance, budget, cap, from, numbers, queue,
                words, told, lent,
            )
        }
    }

    pub fn bodies(&self, bodies: &Bodies, queue: &mut [u64], told: &mut [u32]) -> u32 {
        let Bodies { edition, a, b, separations: [x, y, z], tolerance, budget } = *bodies;
        // Sound: as above; edition and counts may be any numbers.
        unsafe {
            (self.bodies)(
                edition,
                x,
                y,
                z,
                tolerance,
                budget,
                a.count,
                a.start.as_ptr(),
                a.start.len(),
                a.end.as_ptr(),
                a.end.len(),
                b.count,
                b.start.as_ptr(),
                b.start.len(),
                b.end.as_ptr(),
                b.end.len(),
                queue.as_mut_ptr(),
                queue.len(),
                told.as_mut_ptr(),
                told.len(),
            )
        }
    }
}

/// The calls of one case.
pub struct Caller<'a> {
    pub library: &'a Library,
    pub file: Shifted,
    edition: Edition,
    pub tally: &'a mut Tally,
    pub rng: Rng,
    pub differences: Vec<String>,
}

impl<'a> Caller<'a> {
    pub fn new(library: &'a Library, case: &'a Case, tally: &'a mut Tally) -> Caller<'a> {
        let mut rng = Rng::new(case.seed, "calls");
        let file = Shifted::new(&mut rng, &case.file);
        let edition = case.edition();
        Caller { library, file, edition, tally, rng, differences: Vec::new() }
    }

    /// The whole file: room enough, some room beyond it, and one word too few.
    pub fn answers(&mut self, words: usize, expected: &Expected) {
        let exact = TOLD * expected.count();
        let beyond = self.rng.pick(&[0, 0, 1, 7, 8, 100]);
        self.all(words, exact + beyond, expected);
        if exact > 0 && words <= LONG {
            let any = self.rng.below(exact);
            let short = self.rng.pick(&[exact - 1, any]);
            self.all(words, short, expected);
        }
    }

    fn all(&mut self, words: usize, lent: usize, expected: &Expected) {
        let call = format!("taperhive_answers, {words} words, told of {lent}");
        let (mut queue, mut told) = self.lend(words, lent);
        let code = self.library.answers(self.file.bytes(), queue.slice(), told.slice());
        let must = expected.all(lent);
        let flat = must.as_ref().map(|records| records.concat()).map_err(|number| *number);
        let any = must.as_ref().is_ok_and(|records| records.iter().any(answered));
        if let Ok(records) = &must {
            records.iter().for_each(|told| self.tally.told(self.edition, told));
        }
        self.judge(&call, code, &flat, any, &queue, &told);
    }

    /// Some records by themselves, and numbers of records that are not there.
    pub fn single_answers(&mut self, words: usize, expected: &Expected) {
        let count = expected.count();
        let some = if words > LONG { 1 } else { 3 };
        for _ in 0..some.min(count) {
            let n = self.rng.below(count);
            let lent = TOLD + self.rng.pick(&[0, 0, 1, 8]);
            self.one(n, words, lent, expected);
        }
        if words <= LONG {
            let absent = absent(&mut self.rng, count);
            let lent = self.rng.below(10);
            self.one(absent, words, lent, expected);
            let (any, short) = (self.rng.below(count + 1), self.rng.below(TOLD));
            self.one(any, words, short, expected);
        }
    }

    fn one(&mut self, n: usize, words: usize, lent: usize, expected: &Expected) {
        let call = format!("taperhive_answer, record {n}, {words} words, told of {lent}");
        let (mut queue, mut told) = self.lend(words, lent);
        let code = self.library.answer(self.file.bytes(), n, queue.slice(), told.slice());
        let must = expected.one(n, lent);
        if let Ok(told) = &must {
            self.tally.told(self.edition, told);
        }
        let any = must.as_ref().is_ok_and(answered);
        self.judge(&call, code, &must.map(Vec::from), any, &queue, &told);
    }

    /// How many records the file has, with room for that number and with none.
    pub fn count(&mut self) {
        let expected = Expected::of(self.file.bytes(), 0);
        for lent in [1, 2, 0] {
            let mut count: Lent<u32> = Lent::new(self.rng.draw(), lent);
            let code = self.library.count(self.file.bytes(), count.slice());
            let number = [expected.count() as u32];
            let must = match expected.records {
                Err(number) => Err(number),
                Ok(_) if lent == 0 => Err(super::expected::SPACE),
                Ok(_) => Ok(number.to_vec()),
            };
            let queue: Lent<u64> = Lent::new(0, 0);
            let call = format!("taperhive_count, room for {lent}");
            self.judge(&call, code, &must, false, &queue, &count);
        }
    }

    fn lend(&mut self, words: usize, lent: usize) -> (Lent<u64>, Lent<u32>) {
        (Lent::new(self.rng.draw(), words), Lent::new(self.rng.draw(), lent))
    }

    /// The code, every word of told, every word of the queue.
    fn judge(
        &mut self,
        call: &str,
        code: u32,
        must: &Result<Vec<u32>, u32>,
        answered: bool,
        queue: &Lent<u64>,
        told: &Lent<u32>,
    ) {
        self.tally.call(must.as_ref().err().copied());
        let must = Must { told: must, answered };
        self.differences.extend(differences(call, code, &must, queue, told));
    }
}
