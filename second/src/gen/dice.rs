//! Random numbers for files of one edition; an edition draws exactly what it drew before there was a later one.

use crate::edition::{Edition, Range};
use crate::refusals::MOST_SEPARATION;
use crate::rng::Rng;
use std::ops::{Deref, DerefMut};

pub struct Dice {
    rng: Rng,
    pub edition: Edition,
}

impl Dice {
    pub fn new(seed: u64, name: &str, edition: Edition) -> Dice {
        Dice { rng: Rng::new(seed, name), edition }
    }

    pub fn range(&self) -> Range {
        self.edition.range()
    }

    /// An end of the coordinates' range.
    pub fn end(&mut self) -> i32 {
        let most = self.range().most_coordinate;
        self.pick(&[-most, most])
    }

    /// A coordinate that the range does not hold.
    pub fn beyond(&mut self) -> i32 {
        let most = self.range().most_coordinate;
        self.pick(&[most + 1, -most - 1, i32::MIN, i32::MAX, i32::MIN + 1, 1 << 30])
    }

    /// Three equal separations, or behind edition 1 mostly one drawn for each axis.
    pub fn separations(&mut self, mut one: impl FnMut(&mut Dice) -> u32) -> [u32; 3] {
        if self.edition.is_by_axis() && !self.one_in(4) {
            return [one(self), one(self), one(self)];
        }
        [one(self); 3]
    }

    /// d, or behind edition 1 also one around it, up to the eightfold of crews that mind the swell.
    pub fn around(&mut self, d: u32) -> u32 {
        if !self.edition.is_by_axis() {
            return d;
        }
        self.pick(&[d, d, d, d + 1, d.saturating_sub(1), d / 2, 8 * d]).min(MOST_SEPARATION)
    }

    /// Puts a separation on every axis, or behind edition 1 mostly on one.
    pub fn put(&mut self, separations: &mut [u32; 3], d: u32) {
        if self.edition.is_by_axis() && !self.one_in(4) {
            separations[self.rng.below(3)] = d;
        } else {
            *separations = [d; 3];
        }
    }
}

impl Deref for Dice {
    type Target = Rng;

    fn deref(&self) -> &Rng {
        &self.rng
    }
}

impl DerefMut for Dice {
    fn deref_mut(&mut self) -> &mut Rng {
        &mut self.rng
    }
}
