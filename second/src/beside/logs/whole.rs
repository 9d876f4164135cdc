//! A whole query file answered into an answer file.

use crate::answer_file::{file_bytes, file_of};
use crate::beside::buffers::{After, Lent};
use crate::beside::expected::{answered, Expected, SPACE};
use crate::beside::library::Caller;
use crate::beside::tally::{LogCall, Tally};
use crate::beside::{Case, Library, LONG};

/// Answers a case with each of its queue lengths, and by these calls alone; what differs, a line each.
pub fn compare(library: &Library, case: &Case, tally: &mut Tally) -> Vec<String> {
    let mut caller = Caller::new(library, case, tally);
    for words in &case.words {
        caller.logs(*words, &Expected::of(&case.file, *words));
    }
    caller.differences
}

impl Caller<'_> {
    /// With room for exactly that file or for more, and with too little.
    pub fn logs(&mut self, words: usize, expected: &Expected) {
        let exact = file_bytes(expected.count());
        let beyond = self.rng.pick(&[0, 0, 1, 16, 32, 100]);
        self.log(words, exact + beyond, expected);
        if words <= LONG {
            let any = self.rng.below(exact);
            let short = self.rng.pick(&[exact - 1, exact - 1, exact - 16, any, 0]);
            self.log(words, short, expected);
        }
    }

    /// The number returned, every byte written and not written, and every word of the queue.
    fn log(&mut self, words: usize, length: usize, expected: &Expected) {
        let must = expected.records.clone().and_then(|records| {
            let is_short = length < file_bytes(records.len());
            if is_short {
                Err(SPACE)
            } else {
                Ok(records)
            }
        });
        let mut queue: Lent<u64> = Lent::new(self.rng.draw(), words);
        let mut out: Lent<u8> = Lent::new(self.rng.draw(), length);
        let code = self.library.log(self.file.bytes(), queue.slice(), out.slice());
        let number = must.as_ref().err().copied().unwrap_or(0);
        self.tally.log(LogCall::Whole, number);
        let call = format!("taperhive_log, {words} words, {length} bytes");
        if code != number {
            self.differences.push(format!("{call}: returned {code} and must return {number}"));
        }
        let any = must.as_ref().is_ok_and(|records| records.iter().any(answered));
        let log = must.map_or(Vec::new(), |records| file_of(&records));
        let queue_after = if any { After::Zero } else { After::AsFound };
        let in_queue = queue.difference(&queue_after).map(|found| format!("the queue's {found}"));
        let in_out =
            out.difference(&After::Begins(&log)).map(|found| format!("the buffer's {found}"));
        let found = in_queue.into_iter().chain(in_out);
        self.differences.extend(found.map(|found| format!("{call}: {found}")));
    }
}
