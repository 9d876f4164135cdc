//! One triangle of a body replaced, and its block's bound worked out again.

use super::bounds::{blocks, bound, check_coordinates, BLOCK, BOUND};
use super::{Body, NUMBERS};
use crate::edition::Edition;
use crate::refusals::Refusal;

/// Numbers of a triangle at the start, then at the end.
pub const CORNERS: usize = 2 * NUMBERS;

/// A body with the list of its bounds beside it, as they are handed over; nothing here is checked.
#[derive(Clone, Debug, PartialEq, Eq)]
pub struct Kept {
    pub count: usize,
    pub start: Vec<i32>,
    pub end: Vec<i32>,
    pub bounds: Vec<i32>,
}

impl Kept {
    pub fn body(&self) -> Body<'_> {
        Body { count: self.count, start: &self.start, end: &self.end }
    }

    /// Puts these corners in the place of triangle n; nothing is changed where that is refused.
    pub fn replace(&mut self, edition: u8, n: usize, corners: &[i32]) -> Result<(), Refusal> {
        self.check(edition, n, corners)?;
        let (start, end) = corners.split_at(NUMBERS);
        self.start[NUMBERS * n..NUMBERS * (n + 1)].copy_from_slice(start);
        self.end[NUMBERS * n..NUMBERS * (n + 1)].copy_from_slice(end);
        let block = n / BLOCK;
        let anew = bound(&self.body(), block);
        self.bounds[BOUND * block..BOUND * (block + 1)].copy_from_slice(&anew);
        Ok(())
    }

    /// 10, 21, 13, 3, 27.
    fn check(&self, edition: u8, n: usize, corners: &[i32]) -> Result<(), Refusal> {
        let range = Edition::of(edition)?.range();
        if !self.body().has_its_positions() || corners.len() != CORNERS {
            return Err(Refusal::Body);
        }
        if n >= self.count {
            return Err(Refusal::Index);
        }
        check_coordinates(range, corners.iter().chain(self.others(n)))?;
        if self.bounds.len() != BOUND * blocks(self.count) {
            return Err(Refusal::Bounds);
        }
        Ok(())
    }

    /// The coordinates of the other triangles of the block that n is in.
    fn others(&self, n: usize) -> impl Iterator<Item = &i32> {
        let is_other = move |place: &usize| {
            let triangle = place / NUMBERS;
            triangle / BLOCK == n / BLOCK && triangle != n
        };
        let places = (0..NUMBERS * self.count).filter(is_other);
        places.flat_map(|place| [&self.start[place], &self.end[place]])
    }
}
