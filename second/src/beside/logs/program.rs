//! `keep` and `tell` as programs of their own, against what the second program writes.

use super::drawn;
use crate::answer_file::file_of;
use crate::answer_file::text::{keep, tell, MOST_LOG};
use crate::beside::process::{difference, output, text_difference, Output};
use crate::beside::tally::{LogCall, Tally};
use crate::beside::Case;
use crate::refusals::Refusal;
use crate::rng::Rng;
use crate::text::file_line;
use crate::told::Told;

/// Answers of a file that is made for `tell`, at most.
const ANSWERS: usize = 6;

/// What differs between what the programs write of a case and what they must write, a line each.
pub fn compare(
    keep_program: &[String],
    tell_program: &[String],
    case: &Case,
    tally: &mut Tally,
) -> Vec<String> {
    let mut rng = Rng::new(case.seed, &format!("keep {}", case.flavour));
    let must = keep(&case.file);
    tally.log(LogCall::Whole, must.as_ref().map_or_else(|refusal| refusal.number(), |_| 0));
    let mut differences: Vec<String> = kept(keep_program, &case.file, &must).into_iter().collect();
    for log in must.into_iter().chain([made(&mut rng)]) {
        let text = tell(&log);
        let number =
            text.strip_prefix("FILE ").map_or(0, |number| number.trim().parse().unwrap_or(0));
        tally.log(LogCall::Tell, number);
        differences.extend(difference("tell", tell_program, &log, &text));
    }
    differences
}

/// Every byte of the answer file; of a refused file none, and its line on standard error.
fn kept(program: &[String], file: &[u8], must: &Result<Vec<u8>, Refusal>) -> Option<String> {
    let Output { bytes, errors } = match output(program, file) {
        Ok(output) => output,
        Err(fault) => return Some(format!("keep: {fault}")),
    };
    let log = must.as_ref().map_or(&[][..], Vec::as_slice);
    let line = must.as_ref().map_or_else(|refusal| file_line(*refusal), |_| String::new());
    let in_bytes = (bytes != log).then(|| {
        let place = bytes.iter().zip(log).take_while(|(is, must)| is == must).count();
        format!("{} bytes, which must be {}, differ at {place}", bytes.len(), log.len())
    });
    let found = in_bytes.or_else(|| {
        text_difference(&errors, &line).map(|found| format!("on standard error {found}"))
    });
    found.map(|found| format!("keep: {found}"))
}

/// An answer file, whole or damaged, with answers that `tell` must refuse now and then, and now and then as long as it may be or longer.
fn made(rng: &mut Rng) -> Vec<u8> {
    let draw = if rng.one_in(3) { drawn::any } else { drawn::sound };
    let answers: Vec<Told> = (0..rng.below(ANSWERS + 1)).map(|_| draw(rng)).collect();
    let log = drawn::log(rng, &answers);
    let damaged = match rng.below(12) {
        0 => drawn::every_byte_changed(rng, &log),
        1 => drawn::other_trailers(rng, &log),
        2 => drawn::cut(rng, &log),
        3 => {
            let log = file_of(&answers);
            let leading = MOST_LOG + rng.below(3) - 1 - log.len();
            return [rng.bytes(leading), log].concat();
        }
        _ => return log,
    };
    damaged[rng.below(damaged.len())].clone()
}
