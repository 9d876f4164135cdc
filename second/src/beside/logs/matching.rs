//! A query file matched with answer files: its own, and such as differ from it in one thing.

use super::{drawn, Logs};
use crate::answer_file::{file_of, matched};
use crate::beside::buffers::Shifted;
use crate::beside::tally::LogCall;
use crate::file::{fetch, open, record_at};
use crate::told::Told;

/// Damaged answer files tried on one query file.
const DAMAGED: usize = 4;

/// Answers with the ids of the file's records, and the places of the refused ones.
struct Answered {
    answers: Vec<Told>,
    refused: Vec<usize>,
}

impl Logs<'_> {
    pub fn matches(&mut self, file: &[u8]) {
        let own = self.answered(file);
        for (what, answers) in self.variants(&own) {
            let log = drawn::log(&mut self.rng, &answers);
            self.matched(what, file, &log);
        }
        let log = file_of(&own.answers);
        let mut damaged = drawn::every_byte_changed(&mut self.rng, &log);
        damaged.extend(drawn::cut(&mut self.rng, &log));
        for _ in 0..DAMAGED {
            let place = self.rng.below(damaged.len());
            self.matched("a damaged answer file", file, &damaged[place]);
            // The query file's own refusal goes first.
            let cut = file.len().saturating_sub(self.rng.pick(&[1, 2, 16, 17]));
            self.matched("both damaged", &file[..cut], &damaged[place]);
        }
        self.matched("exchanged", &log, file);
        self.matched("queries for answers", file, file);
        self.matched("answers for queries", &log, &log);
    }

    /// Any answers, sound or not, with the ids as they stand; a few with any ids where the file is refused.
    fn answered(&mut self, file: &[u8]) -> Answered {
        let few = self.rng.below(3) as u32;
        let count = open(file).map_or(few, |opened| opened.count);
        let id = |n| record_at(file, n).map(|(record, _)| record.id);
        let answers = (0..count).map(|n| {
            let mut told = drawn::any(&mut self.rng);
            told[0] = id(n).unwrap_or(told[0]);
            told
        });
        let answers = answers.collect();
        let is_refused = |n: &usize| fetch(file, *n as u32).is_err();
        Answered { answers, refused: (0..count as usize).filter(is_refused).collect() }
    }

    /// The same answers, and lists that differ from them in ids, order or number.
    fn variants(&mut self, own: &Answered) -> Vec<(&'static str, Vec<Told>)> {
        let answers = &own.answers;
        let more = drawn::sound(&mut self.rng);
        let mut lists = vec![
            ("its own", answers.clone()),
            ("one more", [&answers[..], &[more]].concat()),
            ("one more before", [&[more], &answers[..]].concat()),
        ];
        let Some(last) = answers.len().checked_sub(1) else { return lists };
        let any = self.rng.below(last + 1);
        lists.push(("its own and the last again", [&answers[..], &answers[last..]].concat()));
        lists.push(("without the last", answers[..last].to_vec()));
        lists.push(("without the first", answers[1..].to_vec()));
        let refused = own.refused.iter().copied().nth(self.rng.below(own.refused.len().max(1)));
        for place in [Some(0), Some(last), Some(any), refused].into_iter().flatten() {
            let mut changed = answers.clone();
            changed[place][0] ^= 1 << self.rng.below(32);
            lists.push(("one id changed", changed));
        }
        let mut exchanged = answers.clone();
        exchanged.swap(any, self.rng.below(last + 1));
        lists.push(("two exchanged", exchanged));
        lists.push(("reversed", answers.iter().rev().copied().collect()));
        let accepted = (0..=last).filter(|n| !own.refused.contains(n));
        lists.push(("the accepted ones", accepted.map(|n| answers[n]).collect()));
        lists
    }

    fn matched(&mut self, what: &str, file: &[u8], log: &[u8]) {
        let [file, log] = [file, log].map(|bytes| Shifted::new(&mut self.rng, bytes));
        let must = matched(file.bytes(), log.bytes());
        let code = self.library.matched(file.bytes(), log.bytes());
        let call = format!("taperhive_match, {what}, {} bytes of answers", log.bytes().len());
        self.judge_code(LogCall::Match, &call, code, must);
    }
}
