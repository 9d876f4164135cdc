//! Queue lengths worth trying on two bodies.

use super::{is_whole, Drawn};
use crate::bodies::refusal;
use crate::edition::Range;
use crate::refusals::MOST_WORDS;
use crate::rng::Rng;
use crate::search::search_traced;

/// Queries that are looked at for the boxes of their largest level.
const LOOKED_AT: usize = 60;

/// The lengths for the bodies of a seed and a flavour, ascending.
pub fn words(seed: u64, flavour: &str, drawn: &Drawn) -> Vec<usize> {
    let mut rng = Rng::new(seed, &format!("words {flavour}"));
    let usual = rng.pick(&[64, 4_096]);
    let mut lengths = vec![usual];
    if is_whole(drawn) {
        return lengths;
    }
    let odd = 2 * rng.below(60) + 5;
    lengths.push(rng.pick(&[2, 3, odd, odd]));
    if rng.one_in(3) {
        lengths.push(rng.pick(&[0, 1]));
    }
    if rng.one_in(8) {
        lengths.push(rng.pick(&[MOST_WORDS, MOST_WORDS + 1]));
    }
    if refusal(&drawn.bodies(), usual).is_none() && rng.one_in(3) {
        lengths.push(around_need(&mut rng, drawn));
    }
    lengths.sort();
    lengths.dedup();
    lengths
}

/// The exact need of some query, two less to one more.
fn around_need(rng: &mut Rng, drawn: &Drawn) -> usize {
    let (queries, range) = (drawn.bodies().queries().take(LOOKED_AT), Range::of(drawn.edition));
    let peaks: Vec<usize> =
        queries.map(|asked| search_traced(&asked.record, range, MOST_WORDS).1.peak).collect();
    let most = peaks.iter().copied().max().expect("fifteen queries at least");
    let any = rng.pick(&peaks);
    (2 * rng.pick(&[most, any]) - 2 + rng.below(4)).max(2)
}
