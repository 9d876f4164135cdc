//! An exact walk by hand that passes blocks over by their bounds: same answers and refusals as `taperhive_walk`.

use super::bounds::{self, blocks, each, of_block, Kept, Pass, BLOCK, BOUND, BOUNDS};
use super::reach::Reach;
use super::walk::{early_refusal, Goes, Row, Walk, COORD, SPACE};
use crate::bodies::{Bodies, Body, MOST_TRIANGLES};
use crate::edition::{Edition, Range};
use crate::refusals::Refusal;

/// A's bounds and B's.
pub type Lists<'a> = [&'a [i32]; 2];

/// The calls with bounds: the library's, or those by hand.
#[derive(Clone, Copy)]
pub struct Calls {
    pub bounds: fn(u8, &Body, &mut [i32]) -> u32,
    pub walk: fn(&Bodies, Lists, &mut [u64], &mut [u32]) -> u32,
    pub replace: fn(u8, &mut Kept, usize, &[i32]) -> u32,
}

pub const BY_HAND: Calls = Calls { bounds: bounds::of, walk, replace: bounds::replace };

/// As `taperhive_walk`.
pub fn walk(bodies: &Bodies, lists: Lists, queue: &mut [u64], told: &mut [u32]) -> u32 {
    let Ok(edition) = Edition::of(bodies.edition) else { return Refusal::Edition.number() };
    let (range, Bodies { a, b, .. }) = (edition.range(), bodies);
    let number = early_refusal(bodies, &range, queue.len());
    if number != 0 {
        return number;
    }
    let checked =
        [a, b].into_iter().zip(lists).map(|(body, list)| Checked::new(body, list, &range));
    let all = checked.fold(Checked::SOUND, Checked::and);
    if all.is_outside {
        return COORD;
    }
    if !all.is_exact {
        return BOUNDS;
    }
    let Some(told) = told.first_chunk_mut::<8>() else { return SPACE };
    *told = Walk::through(bodies, &range, queue, |walk| pairs(walk, [a, b], lists));
    0
}

/// What one pass through a body and its bounds finds.
struct Checked {
    is_outside: bool,
    is_exact: bool,
}

impl Checked {
    const SOUND: Checked = Checked { is_outside: false, is_exact: true };

    #[inline(always)]
    fn new(body: &Body, list: &[i32], range: &Range) -> Checked {
        let is_exact = list.len() == BOUND * blocks(body.count);
        let mut checked = Checked { is_outside: false, is_exact };
        for block in 0..blocks(body.count) {
            let pass = Pass::through(body, of_block(block, body.count));
            checked.is_outside |= pass.is_outside(range);
            checked.is_exact = checked.is_exact && list[BOUND * block..][..BOUND] == pass.bound();
        }
        checked
    }

    fn and(self, other: Checked) -> Checked {
        Checked {
            is_outside: self.is_outside | other.is_outside,
            is_exact: self.is_exact & other.is_exact,
        }
    }
}

/// Which blocks of B are not apart from one of A.
type Near = [bool; MOST_TRIANGLES / BLOCK];

/// Block by block of A: where all of B is apart, nothing is looked at a second time.
fn pairs(walk: &mut Walk, [a, b]: [&Body; 2], [of_a, of_b]: Lists) -> Goes {
    for (block, bound) in each(of_a).enumerate() {
        let near = near(&Reach::around_block(bound, walk.separations()), of_b);
        let mut triangles = of_block(block, a.count);
        if near == Near::default() {
            walk.pass_over(triangles.len() * b.count);
        } else {
            triangles.try_for_each(|m| row(walk, Row::new(walk, a, m), b, of_b, &near))?;
        }
    }
    Goes::Continue(())
}

#[inline(always)]
fn near(around: &Reach, of_b: &[i32]) -> Near {
    let mut near = Near::default();
    for (near, bound) in near.iter_mut().zip(each(of_b)) {
        *near = !around.misses_block(bound);
    }
    near
}

/// A triangle of A through the blocks of B: by the two blocks, then by what it reaches itself, then triangle by triangle.
#[inline(always)]
fn row(walk: &mut Walk, mut row: Row, b: &Body, of_b: &[i32], near: &Near) -> Goes {
    for (block, (bound, near)) in each(of_b).zip(near).enumerate() {
        let triangles = of_block(block, b.count);
        if *near && !row.around.misses_block(bound) {
            row.ask(walk, b, triangles)?;
        } else {
            row.apart += triangles.len();
        }
    }
    walk.pass_over(row.apart);
    Goes::Continue(())
}
