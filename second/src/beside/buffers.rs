//! Lent buffers that hold anything at first, with words around them that nobody may touch.

use crate::rng::Rng;
use std::fmt::Debug;

/// A word of a lent buffer.
pub trait Word: Copy + PartialEq + Debug + Default {
    const NAME: &'static str;
    /// Words on either side of what is lent.
    const GUARD: usize;
    fn cut(number: u64) -> Self;
}

impl Word for u64 {
    const NAME: &'static str = "word";
    const GUARD: usize = 4;
    fn cut(number: u64) -> u64 {
        number
    }
}

impl Word for u32 {
    const NAME: &'static str = "word";
    const GUARD: usize = 4;
    fn cut(number: u64) -> u32 {
        number as u32
    }
}

impl Word for i32 {
    const NAME: &'static str = "number";
    /// A triangle's worth.
    const GUARD: usize = 9;
    fn cut(number: u64) -> i32 {
        number as i32
    }
}

impl Word for u8 {
    const NAME: &'static str = "byte";
    /// Enough to hold a record that is written just before the lent part or just behind it.
    const GUARD: usize = 256;
    fn cut(number: u64) -> u8 {
        number as u8
    }
}

/// What a lent buffer must hold after a call.
pub enum After<'a, T> {
    AsFound,
    Zero,
    /// These words first, the others as found.
    Begins(&'a [T]),
}

/// A file's bytes, from an address of any alignment.
pub struct Shifted {
    all: Vec<u8>,
    shift: usize,
}

impl Shifted {
    pub fn new(rng: &mut Rng, file: &[u8]) -> Shifted {
        let shift = rng.below(8);
        Shifted { all: [&vec![0; shift], file].concat(), shift }
    }

    pub fn bytes(&self) -> &[u8] {
        &self.all[self.shift..]
    }
}

pub struct Lent<T> {
    all: Vec<T>,
    seed: u64,
    length: usize,
}

impl<T: Word> Lent<T> {
    pub fn new(seed: u64, length: usize) -> Lent<T> {
        let all = (0..length + 2 * T::GUARD).map(|place| found(seed, place)).collect();
        Lent { all, seed, length }
    }

    /// One that holds these words at first.
    pub fn holding(seed: u64, words: &[T]) -> Lent<T> {
        let mut lent = Lent::new(seed, words.len());
        lent.slice().copy_from_slice(words);
        lent
    }

    pub fn read(&self) -> &[T] {
        &self.all[T::GUARD..T::GUARD + self.length]
    }

    pub fn slice(&mut self) -> &mut [T] {
        &mut self.all[T::GUARD..T::GUARD + self.length]
    }

    /// The first word that is not as it must be, places counted from the lent part's start.
    pub fn difference(&self, after: &After<T>) -> Option<String> {
        let lent = T::GUARD..T::GUARD + self.length;
        let expected = |place: usize| match after {
            After::Zero if lent.contains(&place) => T::default(),
            After::Begins(words) if (T::GUARD..T::GUARD + words.len()).contains(&place) => {
                words[place - T::GUARD]
            }
            _ => found(self.seed, place),
        };
        let place = (0..self.all.len()).find(|place| self.all[*place] != expected(*place))?;
        let (is, must) = (self.all[place], expected(place));
        let place = place as i64 - T::GUARD as i64;
        Some(format!("{} {place} is {is:?} and must be {must:?}", T::NAME))
    }
}

/// What a place holds at first: any word, by splitmix64's last steps.
fn found<T: Word>(seed: u64, place: usize) -> T {
    let z = (seed ^ place as u64).wrapping_mul(0xBF58_476D_1CE4_E5B9);
    let z = (z ^ (z >> 27)).wrapping_mul(0x94D0_49BB_1331_11EB);
    T::cut(z ^ (z >> 31))
}
