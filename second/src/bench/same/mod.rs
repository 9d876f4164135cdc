//! An exact search by hand with the ideas of the proved one, as fast as they go in plain Rust.

mod slab;

use super::answering::{Answer, ByHand, CLEAR, FLOOR, MET, ROOM, SPENT};
use super::motion::Asked;
use super::stored::{is_inside, Recorded, INDEX, SHIFTS};
use slab::{is_near, Strip};
use std::convert::Infallible;

pub struct Same;

impl ByHand for Same {
    const CUBE_FIRST: bool = true;

    #[inline(never)]
    fn search(asked: &Asked, queue: &mut [u64]) -> Answer {
        let (left, recorded) = (asked.budget as usize, Recorded::NONE);
        let mut search = Search { asked, depths: [0; 3], left, used: 1, recorded };
        let Err(word) = search.levels(queue);
        let (used, half) = (search.used, queue.len() / 2);
        queue[..used].fill(0);
        queue[half..half + used].fill(0);
        search.recorded.answer(word, asked, search.left)
    }
}

struct Search<'a> {
    asked: &'a Asked,
    depths: [u32; 3],
    /// Boxes that the budget has left.
    left: usize,
    /// The most words that a level has had in its half of the queue.
    used: usize,
    recorded: Recorded,
}

/// Or the word that answers, where the search ends.
type Goes<T> = Result<T, u32>;

impl Search<'_> {
    /// Each level in one half of the queue, by turns.
    fn levels(&mut self, queue: &mut [u64]) -> Goes<Infallible> {
        let half = queue.len() / 2;
        let (mut present, second) = queue.split_at_mut(half);
        let mut next = &mut second[..half];
        let asked = self.asked;
        self.record(0, 0, |axis| Strip::new(asked, &[0; 3], axis, 0))?;
        self.left -= 1;
        present[0] = 0;
        let mut size = 1;
        let differences = asked.differences();
        loop {
            let parameter = asked.parameter(&differences, &self.depths);
            self.depths[parameter] += 1;
            let made = self.split(SHIFTS[parameter], &present[..size], next);
            self.used = self.used.max(made.unwrap_or(half));
            size = self.check(&mut next[..made?])?;
            std::mem::swap(&mut present, &mut next);
        }
    }

    /// Only a high half can go: of a split in t one beyond the cap, of another split one of vertex-face outside.
    #[inline(always)]
    fn split(&self, shift: u32, boxes: &[u64], next: &mut [u64]) -> Goes<usize> {
        match (shift, self.asked.is_vertex_face) {
            (40, _) => self.merge::<40, false>(boxes, next),
            (20, true) => self.merge::<20, true>(boxes, next),
            (20, false) => self.merge::<20, false>(boxes, next),
            (_, true) => self.merge::<0, true>(boxes, next),
            (_, false) => self.merge::<0, false>(boxes, next),
        }
    }

    /// The low and the high halves in the order of their words; each is worked out once.
    #[inline(never)]
    fn merge<const SHIFT: u32, const IS_BOUNDED: bool>(
        &self,
        boxes: &[u64],
        next: &mut [u64],
    ) -> Goes<usize> {
        let low_of = |word: u64| word + (word & INDEX << SHIFT);
        let high_of = |word: u64| low_of(word) + (1 << SHIFT);
        let end = self.asked.end(self.depths[0]);
        let stays = |high: u64| match SHIFT {
            40 => high < end,
            _ => !IS_BOUNDED || is_inside(high, &self.depths),
        };
        let (mut lows, mut made) = (0, 0);
        let mut low = low_of(boxes[0]);
        for word in boxes {
            let high = high_of(*word);
            while low < high {
                *next.get_mut(made).ok_or(ROOM)? = low;
                made += 1;
                lows += 1;
                // Past the last, greater than the word of any box.
                low = boxes.get(lows).map_or(u64::MAX, |word| low_of(*word));
            }
            if stays(high) {
                *next.get_mut(made).ok_or(ROOM)? = high;
                made += 1;
            }
        }
        Ok(made)
    }

    /// Brings the survivors of a level to its front.
    fn check(&mut self, level: &mut [u64]) -> Goes<usize> {
        let end = level.len().min(self.left);
        let (mut n, mut survivors) = (0, 0);
        while n < end {
            (n, survivors) = self.check_slab(&mut level[..end], n, survivors)?;
        }
        if level.len() > self.left {
            self.left = 0;
            return Err(SPENT);
        }
        self.left -= level.len();
        if survivors == 0 {
            Err(CLEAR)
        } else {
            Ok(survivors)
        }
    }

    /// The boxes of one t index from this one on: z first, then x, then y, each left at the first that misses.
    #[inline(always)]
    fn check_slab(
        &mut self,
        level: &mut [u64],
        mut n: usize,
        mut survivors: usize,
    ) -> Goes<(usize, usize)> {
        let t = level[n] >> 40;
        let strip = |axis: usize| Strip::new(self.asked, &self.depths, axis, t);
        let z = strip(2);
        while !z.meets(level[n]) {
            n += 1;
            if n == level.len() || level[n] >> 40 != t {
                return Ok((n, survivors));
            }
        }
        // Only for a box that z leaves.
        let (x, y) = (strip(0), strip(1));
        while n < level.len() && level[n] >> 40 == t {
            let word = level[n];
            if z.meets(word) && x.meets(word) && y.meets(word) {
                if survivors == 0 {
                    self.record(n, word, |axis| [x, y, z][axis])?;
                }
                level[survivors] = word;
                survivors += 1;
            }
            n += 1;
        }
        Ok((n, survivors))
    }

    /// The level's first survivor, with so many boxes before it.
    #[inline(always)]
    fn record(&mut self, before: usize, word: u64, strip: impl Fn(usize) -> Strip) -> Goes<()> {
        self.recorded = Recorded { word, depths: self.depths };
        let answer = if is_near(self.asked, word, strip) {
            MET
        } else if self.depths == [self.asked.deepest; 3] {
            FLOOR
        } else {
            return Ok(());
        };
        self.left -= before + 1;
        Err(answer)
    }
}
