//! Queue lengths worth trying on a file.

use super::generate;
use super::tuned::peak;
use crate::edition::Range;
use crate::file::{fetch, open};
use crate::refusals::MOST_WORDS;
use crate::rng::Rng;

/// Room is left for the two longest.
const ENOUGH: usize = 14;
/// Records of a file that are looked at.
const FIRST_FEW: u32 = 8;

/// The lengths for the file of a seed and a flavour, ascending.
pub fn words(seed: u64, flavour: &str) -> Option<Vec<usize>> {
    let file = generate(seed, flavour)?;
    let mut rng = Rng::new(seed, "words");
    let odd = 2 * rng.below(300) + 5;
    let mut lengths = vec![0, 1, 2, 3, odd, 4096];
    let (count, range) =
        open(&file).map_or((0, Range::SHORTER), |opened| (opened.count, opened.edition.range()));
    for n in 0..count.min(FIRST_FEW) {
        if let Ok(record) = fetch(&file, n) {
            around(2 * peak(&record, range), &mut lengths);
        }
        if lengths.len() + 4 > ENOUGH {
            break;
        }
    }
    if rng.one_in(3) {
        lengths.extend([MOST_WORDS, MOST_WORDS + 1]);
    }
    lengths.sort();
    Some(lengths)
}

/// The exact need of a record, two less to one more.
fn around(need: usize, lengths: &mut Vec<usize>) {
    for length in need - 2..=need + 1 {
        if !lengths.contains(&length) {
            lengths.push(length);
        }
    }
}
