//! caps in the search, in the file, in the walk, and in `why`.

#[path = "../common/mod.rs"]
mod common;
mod refused;
mod searched;
mod walked;
mod why;

use common::*;
use second::edition::Range;
use second::record::{Record, VERTEX_FACE};
use second::rng::Rng;
use second::why::{Parts, ONE};

/// The first case with a cap.
fn first(cap: u32) -> Record {
    Record { cap, ..first_case() }
}

/// Records with caps of editions 2 and 3, and their ranges.
fn capped() -> Vec<(Record, Range)> {
    let files = ["cap2", "cap3"].into_iter().flat_map(|name| files(name, 20));
    files.flat_map(|file| ranged(&file)).collect()
}

/// A place of the domain at a moment.
fn at(rng: &mut Rng, kind: u8, t: u32) -> Parts {
    let u = rng.below(ONE as usize + 1) as u32;
    let most = if kind == VERTEX_FACE { ONE - u } else { ONE };
    [t, u, rng.below(most as usize + 1) as u32]
}
