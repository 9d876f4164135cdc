//! `why` as a program of its own, against the line that the second program prints.

use super::points::Points;
use super::tally::Tally;
use super::{drawn, records, Case};
use crate::beside::process::difference;
use crate::rng::Rng;
use crate::why::text::{line, searched};

/// Records of a file that are asked about, and points of each: a program takes long to start.
const RECORDS: usize = 2;
const POINTS: usize = 2;

/// What differs between the lines that the program prints of a case and those that it must print.
pub fn compare(program: &[String], case: &Case, tally: &mut Tally) -> Vec<String> {
    let mut rng = Rng::new(case.seed, &format!("why as a program {}", case.flavour));
    let mut differences = Vec::new();
    for n in records(&mut rng, case, RECORDS) {
        let searched = searched(&case.file, n);
        let searched = searched.as_ref().map_err(|refusal| *refusal);
        let points = searched.ok().map(Points::of);
        for _ in 0..POINTS {
            let point = drawn(&mut rng, points.as_ref());
            let why = searched.and_then(|searched| searched.why(point));
            let answer = searched.ok().map(|searched| &searched.answer);
            tally.asked(answer, &why.map(|discarded| discarded.told()));
            let numbers = [n.to_string()].into_iter().chain(point.map(|part| part.to_string()));
            let numbers: Vec<String> = numbers.collect();
            let name = format!("why {}", numbers.join(" "));
            let called = [program, &numbers].concat();
            differences.extend(difference(&name, &called, &case.file, &line(&why)));
        }
    }
    differences
}
