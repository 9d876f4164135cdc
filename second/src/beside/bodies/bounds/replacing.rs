//! Triangles replaced by the library: the first, the last, at the edges of blocks, and refused ones.

use super::super::tally::Tally;
use super::super::Case;
use super::asked::Asked;
use super::LentBody;
use crate::beside::buffers::{After, Lent};
use crate::beside::Library;
use crate::refusals::Refusal;
use crate::rng::Rng;

/// Triangles replaced in one case, and how much of a call is spoilt.
const TIMES: usize = 8;
const SPOILT: [usize; 6] = [0, 1, 1, 1, 2, 3];

/// What differs, a line each.
pub fn compare(library: &Library, case: &Case, tally: &mut Tally) -> Vec<String> {
    let mut rng = Rng::new(case.seed, &format!("replacing {}", case.flavour));
    let mut differences = Vec::new();
    for _ in 0..TIMES {
        let mut asked = Asked::new(&mut rng, &case.drawn.bodies());
        for _ in 0..rng.pick(&SPOILT) {
            asked.spoil(&mut rng);
        }
        differences.extend(call(library, &asked, &mut rng, tally));
    }
    differences
}

fn call(library: &Library, asked: &Asked, rng: &mut Rng, tally: &mut Tally) -> Vec<String> {
    let Asked { edition, kept, n, corners } = asked;
    let mut must = kept.clone();
    let number = must.replace(*edition, *n, corners).map_or_else(Refusal::number, |()| 0);
    let mut lend = |list: &[i32]| Lent::holding(rng.draw(), list);
    let [mut start, mut end] = [lend(&kept.start), lend(&kept.end)];
    let [mut bounds, given] = [lend(&kept.bounds), lend(corners)];
    let (count, list) = (kept.count, &kept.bounds);
    let body = LentBody { count, start: start.slice(), end: end.slice(), bounds: bounds.slice() };
    let code = library.replace(*edition, body, *n, given.read());
    tally.replaced(number);
    let call = format!(
        "taperhive_replace, edition {edition}, triangle {n} of {count} by {corners:?}, bounds {list:?}"
    );
    let mut lines = Vec::new();
    if code != number {
        lines.push(format!("{call}: returned {code} and must return {number}"));
    }
    let lists = [
        ("start", &start, &must.start),
        ("end", &end, &must.end),
        ("bounds", &bounds, &must.bounds),
        ("corners", &given, corners),
    ];
    for (name, lent, list) in lists {
        let difference = lent.difference(&After::Begins(list));
        lines.extend(difference.map(|difference| format!("{call}: the {name}'s {difference}")));
    }
    lines
}
