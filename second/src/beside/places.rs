//! Buffers' lengths and places in them for what a writer writes.

use crate::edition::Edition;
use crate::rng::Rng;

/// How many bytes are lent, and the place to write at, which may be any number.
#[derive(Clone, Copy, Debug)]
pub struct Room {
    pub length: usize,
    pub at: usize,
}

/// Rooms for so many bytes: exact, too short, and with so many more (at least one) than needed.
pub fn rooms(rng: &mut Rng, size: usize, more: usize) -> Vec<Room> {
    let exact = [(size, 0), (size - 1, 0), (size, 1), (0, 0)];
    let length = size + more;
    // The sum of place and size, cut to 64 bits, is a number within the buffer.
    let wraps = usize::MAX - rng.below(size);
    // Cut to 32 bits, or without the highest bit, they are places that fit.
    let (low, lower) = (rng.below(more + 1), rng.below(more + 1));
    let places = [
        0,
        1,
        more / 2,
        more - 1,
        more,
        more + 1,
        length - 1,
        length,
        length + 1,
        length + more,
        usize::MAX,
        usize::MAX - size,
        usize::MAX - size + 1,
        wraps,
        (1 << 32) + low,
        (1 << 63) + lower,
    ];
    exact.into_iter().chain(places.map(|at| (length, at))).map(Room::from).collect()
}

impl From<(usize, usize)> for Room {
    fn from((length, at): (usize, usize)) -> Room {
        Room { length, at }
    }
}

/// A number of a record that is not there, behind so many that are.
pub fn absent(rng: &mut Rng, count: usize) -> usize {
    rng.pick(&[count, count + 1, 4096, 1 << 32, (1 << 32) + count / 2, 1 << 57, usize::MAX])
}

/// Every edition and a number that is none's.
pub fn editions(rng: &mut Rng) -> Vec<u8> {
    let none = rng.pick(&[0, 4, 129, 255]);
    Edition::ALL.iter().map(|edition| edition.number()).chain([none]).collect()
}

/// The bytes of an edition's record; of any edition's where the number is none's.
pub fn record_bytes(rng: &mut Rng, edition: u8) -> usize {
    let any = rng.pick(&Edition::ALL);
    Edition::of(edition).unwrap_or(any).record_bytes()
}

/// Some of a list.
pub fn some<T: Copy>(rng: &mut Rng, list: &[T], number: usize) -> Vec<T> {
    (0..number).map(|_| rng.pick(list)).collect()
}
