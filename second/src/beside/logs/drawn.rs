//! Answers and answer files, sound ones and such as must be refused.

use crate::answer_file::{file_of, EDITION, MARK, RECORD_BYTES};
use crate::file::trailer;
use crate::file::{MOST_RECORDS, TRAILER_BYTES};
use crate::record::word_at;
use crate::rng::Rng;
use crate::told::{Told, WORDS};

/// Numbers at an end of some field, and one beyond it.
const ENDS: [u32; 12] = [
    0,
    1,
    5,
    6,
    1_048_575,
    1_048_576,
    1_000_000,
    1_000_001,
    1 << 30,
    1 << 31,
    (1 << 31) + 1,
    u32::MAX,
];

/// An answer that may be written, of any word.
pub fn sound(rng: &mut Rng) -> Told {
    let word = rng.below(WORDS.len()) as u32;
    let any = rng.draw() as u32;
    let part = |rng: &mut Rng| rng.pick(&[0, 1, 524_288, 1_048_574, 1_048_575, any % 1_048_576]);
    let [t, u, v] = [part(rng), part(rng), part(rng)];
    let excess = rng.pick(&[0, 1, 500, 1_048_576, u32::MAX, any]);
    let count = rng.pick(&[1, 2, 999_999, 1_000_000, 1 + any % 1_000_000]);
    let id = rng.pick(&[0, 1, 77, u32::MAX, any]);
    match word {
        0 => [id, word, 0, 0, 0, 0, 0, rng.pick(&[1, 5, 7, 16, 22, 28, u32::MAX, any.max(1)])],
        2 => [id, word, 0, 0, 0, 0, count, 0],
        _ => [id, word, t, u, v, excess, count, 0],
    }
}

/// A sound answer with none, one or two of its numbers at an end or beyond it.
pub fn any(rng: &mut Rng) -> Told {
    let mut told = sound(rng);
    for _ in 0..rng.pick(&[0, 1, 1, 1, 2]) {
        let field = 1 + rng.below(7);
        told[field] = if rng.one_in(8) { rng.draw() as u32 } else { rng.pick(&ENDS) };
    }
    told
}

/// An answer file of these behind free bytes, or behind none.
pub fn log(rng: &mut Rng, answers: &[Told]) -> Vec<u8> {
    let leading = rng.pick(&[0, 0, 0, 1, 16, RECORD_BYTES - 1, RECORD_BYTES, RECORD_BYTES + 1]);
    [rng.bytes(leading), file_of(answers)].concat()
}

/// The same file with each byte of its trailer changed in turn.
pub fn every_byte_changed(rng: &mut Rng, log: &[u8]) -> Vec<Vec<u8>> {
    let changed = |place: usize| {
        let mut changed = log.to_vec();
        changed[log.len() - TRAILER_BYTES + place] ^= rng.pick(&[1, 2, 3, 0x20, 0x80, 0xFF]);
        changed
    };
    (0..TRAILER_BYTES).map(changed).collect()
}

/// The same records behind other trailers: another mark, other counts and pointers that agree with them or not.
pub fn other_trailers(rng: &mut Rng, log: &[u8]) -> Vec<Vec<u8>> {
    let (records, own) = log.split_at(log.len() - TRAILER_BYTES);
    let (back, count) = (word_at(own, 8), word_at(own, 12));
    let size = RECORD_BYTES as u32;
    let near = [count.wrapping_sub(1), count + 1, 0, 1];
    let far = [MOST_RECORDS, MOST_RECORDS + 1, 1 << 27, (1 << 27) + count, u32::MAX];
    let agreeing = near.into_iter().chain(far).map(|count| (count.wrapping_mul(size), count));
    let alone = near.into_iter().chain(far).map(|count| (back, count));
    let shifts = [1, size - 1, size, 1 << 16, 1 << 31, u32::MAX, u32::MAX - size + 1];
    let shifted = shifts.into_iter().map(|shift| (back.wrapping_add(shift), count));
    // Records as long as those of a query file.
    let longer = [116, 128].into_iter().map(|size| (size * count, count));
    let mut trailers: Vec<[u8; TRAILER_BYTES]> = agreeing
        .chain(alone)
        .chain(shifted)
        .chain(longer)
        .map(|(back, count)| trailer::bytes(MARK, EDITION, back, count))
        .collect();
    let edition = rng.pick(&[0, 2, 3, 129]);
    trailers.push(trailer::bytes(crate::file::MARK, EDITION, back, count));
    trailers.push(trailer::bytes(*b"aend", EDITION, back, count));
    trailers.push(trailer::bytes(MARK, edition, back, count));
    trailers.into_iter().map(|trailer| [records, &trailer].concat()).collect()
}

/// The same file with bytes cut off before, behind or within, or with some put behind.
pub fn cut(rng: &mut Rng, log: &[u8]) -> Vec<Vec<u8>> {
    let length = log.len();
    let few = rng.pick(&[1, 2, 15, 16, 17, 31, 32, 33]).min(length);
    let from = rng.below(length - few + 1);
    vec![
        log[1..].to_vec(),
        log[few..].to_vec(),
        log[..length - 1].to_vec(),
        log[..length - few].to_vec(),
        [&log[..from], &log[from + few..]].concat(),
        [log, &rng.bytes(few)].concat(),
        log[length - 15..].to_vec(),
        Vec::new(),
    ]
}
