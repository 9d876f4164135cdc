//! Files matched by the stub.

use super::{check, reading, refused, Fault};
use second::beside::functions::MatchedArguments;
use second::file::{fetch, open, record_at};
use second::refusals::Refusal;
use second::told::Told;
use std::slice::from_raw_parts;

pub unsafe fn matched(fault: Fault, lent: MatchedArguments) -> Result<(), Refusal> {
    let MatchedArguments { file, file_len, log, log_len } = lent;
    let (file, log) = (from_raw_parts(file, file_len), from_raw_parts(log, log_len));
    if fault == Fault::AnswersOpenedFirst {
        reading::open(fault, log)?;
    }
    if fault == Fault::CountsBeforeOpening && (file.len() < 16) != (log.len() < 16) {
        return Err(Refusal::Match);
    }
    let count = open(file)?.count;
    let opened = reading::open(fault, log)?;
    let told = |n: u32| reading::told_at(fault, log, opened, n as usize);
    let answers: Vec<Told> = (0..opened.count).map(told).collect();
    match fault {
        Fault::MatchSeesWords => answers.iter().try_for_each(|told| check(fault, told))?,
        Fault::MatchSeesRecords => {
            (0..count).try_for_each(|n| fetch(file, n).map(|_| ()).map_err(|no| no.refusal))?;
        }
        _ => {}
    }
    let is_accepted = |n: &u32| fetch(file, *n).is_ok();
    let among = |n: &u32| fault != Fault::MatchedByAccepted || is_accepted(n);
    let id = |n: u32| record_at(file, n).unwrap().0.id;
    let asked: Vec<u32> = (0..count).filter(among).map(id).collect();
    let answered: Vec<u32> = answers.iter().map(|told| told[0]).collect();
    let skips = |n: &usize| fault == Fault::MatchSkipsRefused && !is_accepted(&(*n as u32));
    let equal = |n: usize| asked[n] == answered[n] || skips(&n);
    let both = asked.len().min(answered.len());
    let is_matched = asked.len() == answered.len();
    let is_matched = match fault {
        Fault::MatchedBySets => is_matched && sorted(&asked) == sorted(&answered),
        Fault::MatchedByCountAlone => is_matched,
        Fault::MatchedByIdsOfBoth => (0..both).all(equal),
        Fault::MatchedByFirst => is_matched && (0..both.min(1)).all(equal),
        Fault::MatchedByLast => is_matched && (both.saturating_sub(1)..both).all(equal),
        _ => is_matched && (0..both).all(equal),
    };
    refused(!is_matched, Refusal::Match)
}

fn sorted(ids: &[u32]) -> Vec<u32> {
    let mut ids = ids.to_vec();
    ids.sort();
    ids
}
