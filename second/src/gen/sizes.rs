//! Files at the ends of what a file may hold.

use super::bad::maybe_refused;
use super::dice::Dice;
use super::shapes::tiny;
use super::{as_in_a_file, mixed, vec_of};
use crate::file::{file_of, trailer, MOST_RECORDS, TRAILER_BYTES};
use crate::record::Record;
use crate::text::MOST_INPUT;

/// A record that is answered within a few boxes.
fn small(rng: &mut Dice, most: u32) -> Record {
    let record = if rng.one_in(16) { maybe_refused(rng) } else { tiny(rng) };
    // A refused budget stays refused.
    let valid = (1..=crate::refusals::MOST_BUDGET).contains(&record.budget);
    Record { budget: if valid { record.budget.min(most) } else { record.budget }, ..record }
}

/// So many small records.
fn crowd(rng: &mut Dice, count: usize, most: u32) -> Vec<u8> {
    let records = (0..count).map(|_| small(rng, most)).collect();
    file_of(rng.edition, &as_in_a_file(rng, records))
}

/// As many records as a file may hold: too long for `sweep`.
pub fn many(rng: &mut Dice) -> Vec<u8> {
    crowd(rng, MOST_RECORDS as usize, 8)
}

/// As many records as `sweep` takes.
pub fn most(rng: &mut Dice) -> Vec<u8> {
    let count = (MOST_INPUT - TRAILER_BYTES) / rng.edition.record_bytes();
    crowd(rng, count, 40)
}

/// A file of exactly this length, the rest of it leading bytes.
pub fn exactly(rng: &mut Dice, length: usize) -> Vec<u8> {
    let file = match rng.below(4) {
        0 => most(rng),
        1 => vec_of(rng, 0, tiny),
        _ => {
            let count = rng.below(30);
            vec_of(rng, count, mixed)
        }
    };
    let mut whole = filler(rng, length - file.len());
    whole.extend(file);
    if rng.one_in(8) {
        let place = length - 1 - rng.below(TRAILER_BYTES);
        whole[place] ^= 1;
    }
    whole
}

/// Leading bytes: noughts, noise, or trailers one behind the other.
fn filler(rng: &mut Dice, length: usize) -> Vec<u8> {
    match rng.below(3) {
        0 => vec![0; length],
        1 => rng.bytes(length),
        _ => {
            let mut bytes = trailer(rng.edition, 0, 0).repeat(length / TRAILER_BYTES + 1);
            // The end of the leading bytes is the place where a wrong reader looks.
            bytes.drain(..bytes.len() - length);
            bytes
        }
    }
}

/// No records: right trailers, wrong pointers, and files too short for a trailer.
pub fn empty(rng: &mut Dice) -> Vec<u8> {
    let length = rng.below(40);
    let (edition, size) = (rng.edition, rng.edition.record_bytes() as u32);
    let right = trailer(edition, 0, 0).to_vec();
    match rng.below(6) {
        0 => right,
        1 => [rng.bytes(length), right].concat(),
        2 => {
            let back = rng.pick(&[1, 16, size, 1 << 31, u32::MAX]);
            [rng.bytes(length), trailer(edition, back, 0).to_vec()].concat()
        }
        3 => {
            let length = rng.below(21);
            rng.bytes(length)
        }
        4 => {
            let cut = 1 + rng.below(16);
            right[cut..].to_vec()
        }
        _ => {
            let cut = rng.below(16);
            let behind = rng.below(5);
            [right[..cut].to_vec(), vec![0; behind]].concat()
        }
    }
}

/// Free leading bytes of every sort, some of which look like a trailer or a record.
pub fn leading(rng: &mut Dice) -> Vec<u8> {
    let count = rng.below(25);
    let file = vec_of(rng, count, mixed);
    let length = rng.below(400);
    let before = match rng.below(5) {
        0 => filler(rng, length),
        1 => file[file.len() - TRAILER_BYTES..].to_vec(),
        2 => small(rng, 20).bytes(rng.edition),
        3 => vec_of(rng, 2, tiny),
        _ => [filler(rng, length), b"QEND".to_vec()].concat(),
    };
    [before, file].concat()
}
