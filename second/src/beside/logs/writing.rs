//! Answers and trailers written into dirty buffers, at places of every sort.

use super::{drawn, Logs, TOLD};
use crate::answer_file::{write, write_trailer, RECORD_BYTES};
use crate::beside::buffers::Lent;
use crate::beside::places::{rooms, some, Room};
use crate::beside::tally::LogCall;
use crate::beside::writing::counts;
use crate::file::{MOST_RECORDS, TRAILER_BYTES};
use crate::refusals::Refusal;
use crate::told::Told;

/// Answers that are written, and counts of a trailer tried at one place.
const ANSWERS: usize = 48;
const FEW: usize = 3;

impl Logs<'_> {
    /// Answers of every sort, each where it fits and at one other place.
    pub fn writes(&mut self) {
        for _ in 0..ANSWERS {
            let told = drawn::any(&mut self.rng);
            let more = 1 + self.rng.below(80);
            let fits =
                Room { length: RECORD_BYTES + more, at: self.rng.pick(&[0, 1, more - 1, more]) };
            let other = rooms(&mut self.rng, RECORD_BYTES, more);
            let other = self.rng.pick(&other);
            [fits, other].into_iter().for_each(|room| self.write(&told, room));
        }
    }

    /// The eight numbers, with any others behind them, or too few.
    fn write(&mut self, told: &Told, room: Room) {
        let length =
            self.rng.pick(&[TOLD, TOLD, TOLD, TOLD, TOLD + 1, 2 * TOLD, TOLD - 1, TOLD - 1, 0]);
        let mut numbers: Lent<u32> = Lent::new(self.rng.draw(), length);
        numbers.slice().iter_mut().zip(told).for_each(|(number, told)| *number = *told);
        let mut lent: Lent<u8> = Lent::new(self.rng.draw(), room.length);
        let mut after = lent.slice().to_vec();
        let must =
            if length < TOLD { Err(Refusal::Space) } else { write(&mut after, room.at, told) };
        let code = self.library.log_write(lent.slice(), room.at, numbers.read());
        let call = format!("taperhive_log_write, {length} numbers, {room:?}, {told:?}");
        self.judge_code(LogCall::Write, &call, code, must);
        self.judge_bytes(&call, &lent, &after);
    }

    /// Behind room for a few records and at the ends of what a file may hold, with a few of the counts that matter there.
    pub fn trailers(&mut self) {
        let rest = self.rng.pick(&[0, 0, 1, RECORD_BYTES - 1]);
        let more = (RECORD_BYTES * self.rng.below(4) + rest).max(1);
        let most = RECORD_BYTES * MOST_RECORDS as usize;
        let far = [most - 1, most, most + 1].map(|at| Room { length: TRAILER_BYTES, at });
        for room in [rooms(&mut self.rng, TRAILER_BYTES, more), far.to_vec()].concat() {
            let all = counts(room.at / RECORD_BYTES);
            let few = some(&mut self.rng, &all, FEW);
            let always = room.at == more || room.at.abs_diff(most) < 2;
            let counts = if always { all.to_vec() } else { few };
            counts.into_iter().for_each(|count| self.trailer(count, room));
        }
        if self.rng.one_in(super::SELDOM) {
            let at = most - self.rng.below(2);
            let room = Room { length: at + TRAILER_BYTES + self.rng.below(3), at };
            [MOST_RECORDS, MOST_RECORDS + 1].into_iter().for_each(|n| self.trailer(n, room));
        }
    }

    fn trailer(&mut self, count: u32, room: Room) {
        let mut lent: Lent<u8> = Lent::new(self.rng.draw(), room.length);
        let mut after = lent.slice().to_vec();
        let must = write_trailer(&mut after, room.at, count);
        let code = self.library.log_trailer(lent.slice(), room.at, count);
        let call = format!("taperhive_log_trailer, {count} records, {room:?}");
        self.judge_code(LogCall::Trailer, &call, code, must);
        self.judge_bytes(&call, &lent, &after);
    }
}
