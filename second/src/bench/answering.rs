//! The calls of the library around a search by hand: the file opened, its records refused or searched, and told.

use super::cube;
use super::motion::Asked;
use super::reading::{records, Query, ONE, TWO};
use crate::edition::Edition;
use crate::file::{open, Opened};
use crate::refusals::check_words;

pub const MET: u32 = 1;
pub const CLEAR: u32 = 2;
pub const SPENT: u32 = 3;
pub const ROOM: u32 = 4;
pub const FLOOR: u32 = 5;

/// Word, t, u, v, excess, count.
pub type Answer = [u32; 6];

/// A search by hand.
pub trait ByHand {
    /// Whether level 0 is looked at in whole units before anything is prepared.
    const CUBE_FIRST: bool;

    /// Of a sound query, where that is so only of one whose cube survives; it may find and leave anything in the queue.
    fn search(asked: &Asked, queue: &mut [u64]) -> Answer;
}

#[inline(always)]
fn answer<S: ByHand>(query: &Query, deepest: u32, queue: &mut [u64]) -> Answer {
    if S::CUBE_FIRST && cube::misses(query.is_vertex_face(), &query.separations, query) {
        return [CLEAR, 0, 0, 0, 0, 1];
    }
    prepared::<S>(query, deepest, queue)
}

/// By itself, so that level 0 has no share in what it needs.
#[inline(never)]
fn prepared<S: ByHand>(query: &Query, deepest: u32, queue: &mut [u64]) -> Answer {
    S::search(&Asked::of(query, deepest), queue)
}

/// As `taperhive_answers`.
pub fn answers<S: ByHand>(file: &[u8], queue: &mut [u64], told: &mut [u32]) -> u32 {
    let opened = match open(file) {
        Ok(opened) => opened,
        Err(refusal) => return refusal.number(),
    };
    if told.len() < 8 * opened.count as usize {
        return 14;
    }
    match opened.edition {
        Edition::One => all::<S, ONE>(file, opened, queue, told),
        Edition::Two | Edition::Three => all::<S, TWO>(file, opened, queue, told),
    }
    0
}

/// Every record of an opened file; SIZE is its edition's.
fn all<S: ByHand, const SIZE: usize>(
    file: &[u8],
    opened: Opened,
    queue: &mut [u64],
    told: &mut [u32],
) {
    let mut any_answered = false;
    let (range, is_no_queue) = (opened.edition.range(), check_words(queue.len()).is_err());
    let records = records::<SIZE>(file, opened.first, opened.count as usize);
    for (query, told) in records.zip(told.chunks_exact_mut(8)) {
        let refusal = query.refusal(&range, is_no_queue);
        let mut numbers = [query.id, 0, 0, 0, 0, 0, 0, refusal];
        if refusal == 0 {
            any_answered = true;
            numbers[1..7].copy_from_slice(&answer::<S>(&query, range.deepest, queue));
        }
        told.copy_from_slice(&numbers);
    }
    // Once is enough: nobody sees the queue between two records.
    if any_answered {
        queue.fill(0);
    }
}
