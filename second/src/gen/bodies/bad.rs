//! Bodies that are refused, alone and for several reasons at once.

use super::{blocks, positions, tuned, Drawn};
use crate::bodies::{MOST_TRIANGLES, NUMBERS};
use crate::edition::Edition;
use crate::gen::bad::bad_tolerance;
use crate::gen::dice::Dice;
use crate::refusals::{MOST_BUDGET, MOST_SEPARATION, MOST_TOLERANCE};

/// Times nine it is 1 in 64 bits: a count of so many lengths wraps round to the length.
const NINTH: usize = 0x8E38_E38E_38E3_8E39;

/// Cheap bodies to be spoilt.
fn sound(rng: &mut Dice) -> Drawn {
    let drawn = tuned::any(rng);
    let budget = drawn.budget.min(20);
    Drawn { budget, ..drawn }
}

/// Refusals 3 to 6, one alone or any of them together, or numbers at the very ends of their ranges.
pub fn refused(rng: &mut Dice) -> Drawn {
    let mut drawn = sound(rng);
    if rng.one_in(8) {
        at_the_ends(rng, &mut drawn);
        return drawn;
    }
    // A coordinate alone most often, as there are many places for it; the longer range has a least tolerance of its own.
    let alone = if rng.edition == Edition::Three { [1, 1, 2, 4, 4, 8] } else { [1, 1, 1, 2, 4, 8] };
    let chosen = if rng.one_in(2) { rng.pick(&alone) } else { rng.below(16) };
    for number in (3..=6).filter(|number| chosen >> (number - 3) & 1 == 1) {
        spoil(rng, &mut drawn, number);
    }
    if rng.one_in(8) {
        spoil_length(rng, &mut drawn);
    }
    drawn
}

/// A coordinate beyond its range in any block of the body that has more, or in its last triangle, which may be alone in a block.
pub fn in_some_block(rng: &mut Dice) -> Drawn {
    let mut drawn = blocks::many_blocks(rng);
    let side = usize::from(drawn.counts[1] > drawn.counts[0]);
    let list = &mut drawn.positions[side][rng.below(2)];
    let places = [rng.below(list.len()), list.len() - 1 - rng.below(NUMBERS)];
    list[rng.pick(&places)] = rng.beyond();
    drawn
}

fn spoil(rng: &mut Dice, drawn: &mut Drawn, number: u32) {
    match number {
        3 => spoil_coordinate(rng, drawn),
        4 => {
            let far = rng.pick(&[MOST_SEPARATION + 1, 1 << 31, u32::MAX]);
            rng.put(&mut drawn.separations, far);
        }
        5 => {
            let choices = [rng.range().least_tolerance - 1, bad_tolerance(rng)];
            drawn.tolerance = rng.pick(&choices);
        }
        _ => drawn.budget = rng.pick(&[0, MOST_BUDGET + 1, 1 << 31, u32::MAX]),
    }
}

/// Any coordinate of the four lists, often an early one, which the first query may have, or the last.
fn spoil_coordinate(rng: &mut Dice, drawn: &mut Drawn) {
    let list = &mut drawn.positions[rng.below(2)][rng.below(2)];
    let last = list.len() - 1;
    let place = match rng.below(4) {
        0 => rng.below(NUMBERS),
        1 => rng.pick(&[0, 2, 3, 8, last]),
        _ => rng.below(last + 1),
    };
    list[place] = rng.beyond();
}

/// Sound, with a number at the end of its range.
fn at_the_ends(rng: &mut Dice, drawn: &mut Drawn) {
    match rng.below(5) {
        0 => rng.put(&mut drawn.separations, MOST_SEPARATION),
        1 => drawn.tolerance = MOST_TOLERANCE,
        2 => drawn.tolerance = rng.range().least_tolerance,
        3 => drawn.budget = 1,
        _ => {
            let list = &mut drawn.positions[rng.below(2)][rng.below(2)];
            let place = rng.below(list.len());
            list[place] = rng.end();
        }
    }
    // The most that is taken, where one box decides every query.
    if drawn.tolerance == MOST_TOLERANCE {
        drawn.budget = MOST_BUDGET;
    }
}

/// A list or two of another length than nine numbers a triangle; sometimes other refusals behind.
pub fn of_other_lengths(rng: &mut Dice) -> Drawn {
    let mut drawn = sound(rng);
    spoil_length(rng, &mut drawn);
    if rng.one_in(4) {
        spoil_length(rng, &mut drawn);
    }
    followed(rng, drawn)
}

/// A count that is not that of the lists, or that no body has; sometimes other refusals behind.
pub fn of_other_counts(rng: &mut Dice) -> Drawn {
    let mut drawn = sound(rng);
    let side = rng.below(2);
    let right = drawn.counts[side];
    match rng.below(5) {
        0 => large(rng, &mut drawn, side),
        1 => wrapped(rng, &mut drawn, side),
        // Cut to 8, 32 or 63 bits they are right.
        2 => drawn.counts[side] = right + rng.pick(&[MOST_TRIANGLES, 1 << 32, 1 << 63]),
        3 => {
            drawn.counts[side] = 0;
            drawn.positions[side].iter_mut().for_each(Vec::clear);
        }
        _ => {
            let others = [0, right - 1, right + 1, MOST_TRIANGLES + 1, 1 << 63, usize::MAX];
            drawn.counts[side] = rng.pick(&others);
        }
    }
    followed(rng, drawn)
}

/// An edition that is none, of bodies that are sound or refused for any reason.
pub fn of_no_edition(rng: &mut Dice) -> Drawn {
    let drawn = match rng.below(4) {
        0 => sound(rng),
        1 => refused(rng),
        2 => of_other_lengths(rng),
        _ => of_other_counts(rng),
    };
    let any = rng.between(4, 255) as u8;
    Drawn { edition: rng.pick(&[0, 4, 129, 255, any]), ..drawn }
}

/// Sometimes with a separation, a tolerance or a budget that is refused too.
fn followed(rng: &mut Dice, mut drawn: Drawn) -> Drawn {
    if rng.one_in(4) {
        let number = 4 + rng.below(3) as u32;
        spoil(rng, &mut drawn, number);
    }
    drawn
}

/// One body of 256 triangles, which are taken, or of 257; the other of one triangle.
fn large(rng: &mut Dice, drawn: &mut Drawn, side: usize) {
    let count = rng.pick(&[MOST_TRIANGLES, MOST_TRIANGLES, MOST_TRIANGLES + 1]);
    let mut far = [[[90_000, 90_000, 90_000]; 3]; 2];
    far[1][2][rng.below(3)] += 50;
    drawn.positions[side] = positions(&vec![far; count]);
    drawn.positions[1 - side].iter_mut().for_each(|list| list.truncate(NUMBERS));
    drawn.counts = [1, 1];
    drawn.counts[side] = count;
}

/// A count that, times nine and cut to 64 bits, is the length of the lists.
fn wrapped(rng: &mut Dice, drawn: &mut Drawn, side: usize) {
    let length = 1 + rng.below(30);
    drawn.counts[side] = length.wrapping_mul(NINTH);
    drawn.positions[side].iter_mut().for_each(|list| list.resize(length, 0));
}

/// A length around the right one, or quite another.
fn spoil_length(rng: &mut Dice, drawn: &mut Drawn) {
    let list = &mut drawn.positions[rng.below(2)][rng.below(2)];
    let right = list.len();
    let less = |by: usize| right.saturating_sub(by);
    let lengths = [less(1), right + 1, less(NUMBERS), right + NUMBERS, 0, right / 3, 2 * right];
    list.resize(rng.pick(&lengths), 0);
}
