//! What is asked of the library where a triangle is to be replaced: sound, and spoilt in one way or several.

use super::{list, other_length};
use crate::beside::places::{absent, editions};
use crate::bodies::bounds::BLOCK;
use crate::bodies::replacing::{Kept, CORNERS};
use crate::bodies::{Bodies, Body, MOST_TRIANGLES, NUMBERS};
use crate::edition::Range;
use crate::rng::Rng;

pub struct Asked {
    pub edition: u8,
    pub kept: Kept,
    pub n: usize,
    pub corners: Vec<i32>,
}

impl Asked {
    /// A triangle of one of the bodies, as far as these are sound, in the place of another.
    pub fn new(rng: &mut Rng, bodies: &Bodies) -> Asked {
        let Bodies { edition, a, b, .. } = *bodies;
        let [body, from] = rng.pick(&[[a, b], [b, a], [a, a], [b, b]]);
        let (bounds, corners) = (list(rng, edition, &body), corners(rng, &from));
        let last = triangles(&body) - 1;
        let any = rng.below(last + 1);
        let edges = [0, last, BLOCK - 1, BLOCK, 2 * BLOCK - 1, 2 * BLOCK, any];
        let n = rng.pick(&edges).min(last);
        let Body { count, start, end } = body;
        let kept = Kept { count, start: start.to_vec(), end: end.to_vec(), bounds };
        let mut asked = Asked { edition, kept, n, corners };
        if rng.one_in(2) {
            asked.shift(rng);
        }
        asked
    }

    /// The new triangle a little further, where that is in the range.
    fn shift(&mut self, rng: &mut Rng) {
        let most = Range::of(self.edition).most_coordinate;
        let by = rng.between(-50, 50);
        let shifted = |number: i32| number.saturating_add(by).clamp(-most, most);
        self.corners.iter_mut().for_each(|number| *number = shifted(*number));
    }

    /// One thing otherwise, which is refused or must not be.
    pub fn spoil(&mut self, rng: &mut Rng) {
        match rng.below(11) {
            0 => {
                let editions = editions(rng);
                self.edition = rng.pick(&editions);
            }
            1 => self.n = absent(rng, triangles(&self.kept.body())),
            2 => beyond(rng, self.edition, &mut self.corners),
            3 => {
                let lengths = [0, NUMBERS, CORNERS - 1, CORNERS + 1, 2 * CORNERS];
                self.corners.resize(rng.pick(&lengths), 0);
            }
            4 => {
                let list = self.positions(rng);
                list.resize(rng.pick(&[list.len() + 1, list.len().saturating_sub(1)]), 0);
            }
            5 => {
                let length = other_length(rng, self.kept.bounds.len());
                self.kept.bounds.resize(length, 0);
            }
            6 => self.kept.bounds.iter_mut().for_each(|number| *number = number.wrapping_add(1)),
            7 => self.kept.bounds.iter_mut().for_each(|number| *number = rng.draw() as i32),
            8 => self.spoil_triangle(rng, self.n),
            9 => {
                let block = self.n / BLOCK * BLOCK;
                let triangle = block.saturating_add(rng.below(BLOCK));
                self.spoil_triangle(rng, triangle.min(triangles(&self.kept.body()) - 1));
            }
            _ => {
                let any = rng.below(triangles(&self.kept.body()));
                self.spoil_triangle(rng, any);
            }
        }
    }

    fn positions(&mut self, rng: &mut Rng) -> &mut Vec<i32> {
        if rng.one_in(2) {
            &mut self.kept.start
        } else {
            &mut self.kept.end
        }
    }

    /// A coordinate of one triangle beyond the range, where the lists have that triangle.
    fn spoil_triangle(&mut self, rng: &mut Rng, n: usize) {
        let edition = self.edition;
        let place = NUMBERS.saturating_mul(n);
        if let Some(triangle) = self.positions(rng).get_mut(place..place.saturating_add(NUMBERS)) {
            beyond(rng, edition, triangle);
        }
    }
}

/// How many triangles a body has, as far as one may have so many.
fn triangles(body: &Body) -> usize {
    body.count.clamp(1, MOST_TRIANGLES)
}

/// Some triangle of a body at the start and at the end.
fn corners(rng: &mut Rng, body: &Body) -> Vec<i32> {
    let place = NUMBERS * rng.below(triangles(body));
    let lists = [body.start, body.end].map(|list| list.iter().skip(place).take(NUMBERS));
    let mut corners: Vec<i32> = lists.into_iter().flatten().copied().collect();
    corners.resize(CORNERS, 0);
    corners
}

/// A number of the list that the edition's range does not hold, by one or by much.
fn beyond(rng: &mut Rng, edition: u8, list: &mut [i32]) {
    let most = Range::of(edition).most_coordinate;
    let place = rng.below(list.len().max(1));
    if let Some(number) = list.get_mut(place) {
        *number = rng.pick(&[most + 1, -most - 1, i32::MAX, i32::MIN]);
    }
}
