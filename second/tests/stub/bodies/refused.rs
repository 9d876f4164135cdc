//! What the stub refuses two bodies for, right or with one fault.

use super::{sound, Fault};
use second::bodies::{Bodies, Body, NUMBERS};
use second::edition::Range;
use second::record::Record;
use second::refusals::{check_record, check_words, Refusal};

/// True where the fault finds that the body is none.
fn is_no_body(fault: Fault, body: &Body) -> bool {
    let Body { count, start, end } = body;
    let lists = [start.len(), end.len()];
    let fits = match fault {
        Fault::LengthsUnchecked => lists.iter().all(|length| *length >= NUMBERS),
        Fault::LengthsWrap => return lists != [NUMBERS.wrapping_mul(*count); 2] || *count == 0,
        _ => lists == [NUMBERS.saturating_mul(*count); 2],
    };
    let range = match fault {
        Fault::Most255 => 1..=255,
        Fault::Least257 => 1..=257,
        Fault::EmptyTaken => 0..=256,
        _ => 1..=256,
    };
    !fits || !range.contains(count)
}

pub fn refused(fault: Fault, bodies: &Bodies, range: Range, words: usize) -> Option<Refusal> {
    let no_body = is_no_body(fault, &bodies.a) || is_no_body(fault, &bodies.b);
    let of_queries = first_refused(fault, &sound(Fault::None, bodies), range, words);
    let of_body = no_body.then_some(Refusal::Body);
    let of_edition = (!is_edition(fault, bodies.edition)).then_some(Refusal::Edition);
    match fault {
        Fault::BodyBeforeEdition => of_body.or(of_edition).or(of_queries),
        Fault::QueriesBeforeEdition => of_body.or(of_queries).or(of_edition),
        Fault::BodyAfterQueries => of_edition.or(of_queries).or(of_body),
        _ => of_edition.or(of_body).or(of_queries),
    }
}

/// True where the fault takes the number for an edition's.
fn is_edition(fault: Fault, number: u8) -> bool {
    match fault {
        Fault::EditionUnchecked => true,
        Fault::EditionOneRefused => [2, 3].contains(&number),
        Fault::EditionThreeRefused => [1, 2].contains(&number),
        Fault::EditionZeroTaken => number <= 3,
        Fault::EditionFourTaken => (1..=4).contains(&number),
        Fault::EditionCutTo7Bits => (1..=3).contains(&(number & 0x7F)),
        _ => (1..=3).contains(&number),
    }
}

/// The first refused query's number, by a check with the fault.
fn first_refused(fault: Fault, bodies: &Bodies, range: Range, words: usize) -> Option<Refusal> {
    let Bodies { a, b, .. } = *bodies;
    let check =
        |record: &Record| check_record(record, range).and_then(|()| check_words(words)).err();
    let first = |bodies: Bodies| bodies.queries().find_map(|asked| check(&asked.record));
    let common = || {
        let nothing = [0; NUMBERS];
        let point = Body { count: 1, start: &nothing, end: &nothing };
        first(Bodies { a: point, b: point, ..*bodies })
    };
    let coordinates = || {
        let right = Bodies { separations: [0; 3], tolerance: 1 << 20, budget: 1, ..*bodies };
        right.queries().find_map(|asked| check_record(&asked.record, range).err())
    };
    match fault {
        Fault::EndOfBUnchecked => first(Bodies { b: Body { end: b.start, ..b }, ..*bodies }),
        Fault::StartOfAUnchecked => first(Bodies { a: Body { start: a.end, ..a }, ..*bodies }),
        Fault::CommonBeforeCoordinates => common().or_else(coordinates),
        Fault::CoordinatesBeforeCommon => coordinates().or_else(common),
        Fault::QueueBeforeBudget if check_words(words).is_err() => {
            first(Bodies { budget: 1, ..*bodies })
        }
        _ => first(*bodies),
    }
}
