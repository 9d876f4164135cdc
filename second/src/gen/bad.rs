//! Refused records, damaged files and cut files.

use super::as_in_a_file;
use super::dice::Dice;
use super::shapes::tiny;
use crate::edition::{Edition, Range};
use crate::file::{fetch, file_of, MOST_RECORDS, TRAILER_BYTES};
use crate::record::{word_at, Record};
use crate::refusals::{MOST_BUDGET, MOST_CAP, MOST_SEPARATION, MOST_TOLERANCE};

/// Mostly a record with one refusal or several, else one at the ends of the ranges.
pub fn maybe_refused(rng: &mut Dice) -> Record {
    if rng.one_in(6) {
        return at_the_ends(rng);
    }
    refused(rng)
}

/// Refusals 1 to 6: one alone, or any set; behind edition 1 sometimes 22, alone or together with these.
pub fn refused(rng: &mut Dice) -> Record {
    let capped = rng.edition.is_by_axis() && rng.one_in(3);
    let chosen = if capped && rng.one_in(3) {
        0
    } else if rng.one_in(2) {
        1 << rng.below(6)
    } else {
        1 + rng.below(63)
    };
    let mut record = tiny(rng);
    for number in (1..=6).filter(|number| chosen >> (number - 1) & 1 == 1) {
        spoil(rng, &mut record, number);
    }
    if capped {
        spoil_cap(rng, &mut record);
    }
    record
}

fn spoil(rng: &mut Dice, record: &mut Record, number: u32) {
    match number {
        1 => record.kind = rng.pick(&[0, 3, 4, 128, 129, 255]),
        2 => spoil_flags(rng, record),
        3 => spoil_coordinate(rng, record),
        4 => spoil_separation(rng, record),
        5 => record.tolerance = bad_tolerance(rng),
        _ => record.budget = rng.pick(&[0, MOST_BUDGET + 1, 1 << 31, u32::MAX]),
    }
}

/// A tolerance that the range does not hold; of the longer one mostly around its least, down to that of the shorter one.
pub fn bad_tolerance(rng: &mut Dice) -> u32 {
    let least = rng.range().least_tolerance;
    let shorter = Range::SHORTER.least_tolerance;
    if least > shorter && !rng.one_in(3) {
        let any = rng.between(shorter as i32, least as i32 - 1) as u32;
        return rng.pick(&[shorter - 1, shorter, any, least - 1, least - 1, least - 1]);
    }
    rng.pick(&[0, 1, least - 1, MOST_TOLERANCE + 1, 1 << 31, u32::MAX])
}

fn spoil_flags(rng: &mut Dice, record: &mut Record) {
    let byte = rng.pick(&[1, 2, 0x80, 0xFF]);
    match rng.below(4) {
        0 => record.flags |= rng.pick(&[2, 4, 8, 16, 32, 64, 128, 0xFE]),
        1 => record.byte2 = byte,
        2 => record.byte3 = byte,
        _ => (record.flags, record.byte2, record.byte3) = (0xFF, byte, byte),
    }
}

/// A cap that is refused, whichever of its bits is the highest.
pub fn spoil_cap(rng: &mut Dice, record: &mut Record) {
    let any = (MOST_CAP << rng.below(12)) + rng.below(MOST_CAP as usize) as u32;
    record.cap = rng.pick(&[MOST_CAP + 1, MOST_CAP + 1, any, 1 << 31, u32::MAX]).max(MOST_CAP + 1);
}

pub fn spoil_separation(rng: &mut Dice, record: &mut Record) {
    let far = rng.pick(&[MOST_SEPARATION + 1, 1 << 31, u32::MAX]);
    rng.put(&mut record.separations, far);
}

fn spoil_coordinate(rng: &mut Dice, record: &mut Record) {
    let coordinate = rng.beyond();
    let points = if rng.one_in(2) { &mut record.start } else { &mut record.end };
    points[rng.below(4)][rng.below(3)] = coordinate;
}

/// Valid, with numbers at the very ends of their ranges.
fn at_the_ends(rng: &mut Dice) -> Record {
    let mut record = tiny(rng);
    // A large budget was fit for the numbers that change here.
    record.budget = record.budget.min(400);
    match rng.below(5) {
        0 => rng.put(&mut record.separations, MOST_SEPARATION),
        1 => record.tolerance = MOST_TOLERANCE,
        2 => record.tolerance = rng.range().least_tolerance,
        3 => record.budget = 1,
        _ => {
            let points = if rng.one_in(2) { &mut record.start } else { &mut record.end };
            points[rng.below(4)][rng.below(3)] = rng.end();
        }
    }
    record
}

/// A few records and a right trailer, to be damaged.
fn sound(rng: &mut Dice) -> Vec<u8> {
    let count = rng.below(12);
    let records: Vec<Record> = (0..count).map(|_| quick(rng)).collect();
    let size = rng.edition.record_bytes();
    let leading = rng.pick(&[0, 0, 1, size, 150]);
    let mut file = rng.bytes(leading);
    file.extend(file_of(rng.edition, &as_in_a_file(rng, records)));
    file
}

/// A record with a small budget, as the damage may make its search a long one.
fn quick(rng: &mut Dice) -> Record {
    let record = tiny(rng);
    Record { budget: record.budget.min(200), ..record }
}

/// Wrong trailers in every combination, or flipped bits.
pub fn damaged(rng: &mut Dice) -> Vec<u8> {
    if rng.edition.is_by_axis() && rng.one_in(3) {
        return of_two_editions(rng);
    }
    let mut file = sound(rng);
    if rng.edition == Edition::Three && rng.one_in(3) {
        // Nothing but the edition: edition 2 has the same size, and reads the records by its own range.
        let at = file.len() - TRAILER_BYTES;
        file[at + 4] = rng.pick(&[0, 1, 2, 2, 4, 4, 129, 255]);
        return file;
    }
    match rng.below(4) {
        0 | 1 => {
            let chosen = 1 + rng.below(15);
            damage_trailer(rng, &mut file, chosen);
        }
        2 => flip(rng, &mut file, TRAILER_BYTES),
        _ => flip_anywhere(rng, &mut file),
    }
    file
}

/// Flips bits of the whole file, but gives no record a budget that takes long.
fn flip_anywhere(rng: &mut Dice, file: &mut Vec<u8>) {
    let mut flipped = file.clone();
    flip(rng, &mut flipped, file.len());
    if !is_slow(&flipped) {
        *file = flipped;
    }
}

fn is_slow(file: &[u8]) -> bool {
    (0..MOST_RECORDS).any(|n| fetch(file, n).is_ok_and(|record| record.budget > 2000))
}

/// Records of one edition before a trailer of any, which points back by the size of another.
fn of_two_editions(rng: &mut Dice) -> Vec<u8> {
    let count = rng.below(12);
    let records: Vec<Record> = (0..count).map(|_| quick(rng)).collect();
    // This edition and those before it.
    let editions = &Edition::ALL[..usize::from(rng.edition.number())];
    let [of_records, of_pointer] = [(); 2].map(|()| rng.pick(editions));
    // With so many more bytes before them, shorter records reach as far back as longer ones.
    let leading = rng.pick(&[0, 12 * count, (12 * count).saturating_sub(1), 150]);
    let mut file = rng.bytes(leading);
    file.extend(file_of(of_records, &as_in_a_file(rng, records)));
    let at = file.len() - TRAILER_BYTES;
    let numbers: &[u8] = match rng.edition {
        Edition::Three => &[0, 1, 2, 2, 3, 3, 4, 129],
        _ => &[0, 1, 1, 2, 2, 3, 255],
    };
    file[at + 4] = rng.pick(numbers);
    let back = of_pointer.records_bytes(count as u32) as u32;
    file[at + 8..at + 12].copy_from_slice(&back.to_le_bytes());
    if is_slow(&file) {
        file[at + 4] = 0;
    }
    file
}

/// Bits 0 to 3 of the choice: mark, edition, count, back pointer.
fn damage_trailer(rng: &mut Dice, file: &mut [u8], chosen: usize) {
    let at = file.len() - TRAILER_BYTES;
    let size = rng.edition.record_bytes() as u32;
    let trailer = &mut file[at..];
    if chosen & 1 != 0 {
        trailer[rng.below(4)] ^= rng.pick(&[1, 0x20, 0x80, 0xFF]);
    }
    if chosen & 2 != 0 {
        trailer[4 + rng.below(4)] ^= rng.pick(&[1, 2, 3, 0x80]);
    }
    let mut count = word_at(trailer, 12);
    if chosen & 4 != 0 {
        let near = [count.wrapping_sub(1), count + 1, count + 2, 0];
        let far = [4095, 4096, 4097, 4098, 1 << 31, u32::MAX, 37_025_581];
        count = if rng.one_in(2) { rng.pick(&near) } else { rng.pick(&far) };
        trailer[12..].copy_from_slice(&count.to_le_bytes());
        // A pointer that agrees with the wrong count tells the two halves of 12 apart.
        if rng.one_in(2) {
            trailer[8..12].copy_from_slice(&count.wrapping_mul(size).to_le_bytes());
        }
    }
    if chosen & 8 != 0 {
        let back = count.wrapping_mul(size);
        let shift = [1, size - 1, size, size + 1, 1 << 16, 1 << 31, u32::MAX, u32::MAX - size + 1];
        let back = back.wrapping_add(rng.pick(&shift));
        trailer[8..12].copy_from_slice(&back.to_le_bytes());
    }
}

/// Flips one to four bits among the last bytes.
fn flip(rng: &mut Dice, file: &mut [u8], last: usize) {
    for _ in 0..1 + rng.below(4) {
        let place = file.len() - 1 - rng.below(last);
        file[place] ^= 1 << rng.below(8);
    }
}

/// A file with bytes cut off before, behind or within, or with some put behind.
pub fn truncated(rng: &mut Dice) -> Vec<u8> {
    let mut file = sound(rng);
    let size = rng.edition.record_bytes();
    let few = rng.pick(&[1, 2, 15, 16, 17, size - 1, size, size + 1]).min(file.len());
    let any = rng.below(file.len() + 1);
    let cut = rng.pick(&[few, any]);
    match rng.below(6) {
        0..=2 => file.drain(..cut),
        3 => file.drain(file.len() - cut..),
        4 => {
            let from = rng.below(file.len() - cut + 1);
            file.drain(from..from + cut)
        }
        _ => {
            file.extend(rng.bytes(few));
            file.drain(..0)
        }
    };
    file
}
