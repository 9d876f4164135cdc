//! The fastest exact search by hand that could be found: whole numbers, every counted box worked out, a word a stored box.

mod slab;

use super::answering::{Answer, ByHand, CLEAR, FLOOR, MET, ROOM, SPENT};
use super::motion::Asked;
use super::stored::{is_inside, Recorded, INDEX, SHIFTS};
use slab::{Leasts, Slab};

pub struct Fast;

impl ByHand for Fast {
    const CUBE_FIRST: bool = true;

    #[inline(never)]
    fn search(asked: &Asked, queue: &mut [u64]) -> Answer {
        let (left, recorded) = (asked.budget as usize, Recorded::NONE);
        let mut search = Search { asked, slab: Slab::new(asked), left, made: 0, recorded };
        let Err(word) = search.levels(queue);
        search.recorded.answer(word, asked, search.left)
    }
}

struct Search<'a> {
    asked: &'a Asked,
    slab: Slab<'a>,
    /// Boxes that the budget has left.
    left: usize,
    /// Survivors of the level so far.
    made: usize,
    recorded: Recorded,
}

/// Or the word that answers, where the search ends.
type Goes<T> = Result<T, u32>;

impl Search<'_> {
    /// Each level in one half of the queue, by turns.
    fn levels(&mut self, queue: &mut [u64]) -> Goes<std::convert::Infallible> {
        let half = queue.len() / 2;
        let (mut present, second) = queue.split_at_mut(half);
        let mut next = &mut second[..half];
        self.record(0, 0, &self.slab.leasts(0))?;
        self.left -= 1;
        present[0] = 0;
        let mut size = 1;
        let differences = self.asked.differences();
        loop {
            let parameter = self.asked.parameter(&differences, &self.slab.depths);
            self.slab.deepen(parameter);
            self.made = 0;
            self.level(SHIFTS[parameter], &present[..size], next)?;
            size = self.made;
            std::mem::swap(&mut present, &mut next);
        }
    }

    /// The survivors of the next level, by the halves of these boxes.
    #[inline(always)]
    fn level(&mut self, shift: u32, boxes: &[u64], next: &mut [u64]) -> Goes<()> {
        // Most levels have room for all halves.
        if 2 * boxes.len() > next.len() && self.halves_inside(shift, boxes) > next.len() {
            return Err(ROOM);
        }
        match shift {
            40 => self.split_t(boxes, next)?,
            20 => self.split_u(boxes, next)?,
            _ => self.split_v(boxes, next)?,
        }
        if self.made == 0 {
            Err(CLEAR)
        } else {
            Ok(())
        }
    }

    fn halves_inside(&self, shift: u32, boxes: &[u64]) -> usize {
        let end = self.asked.end(self.slab.depths[0]);
        let high = |word: &u64| *word + (*word & INDEX << shift) + (1 << shift);
        let highs = boxes.iter().map(high);
        boxes.len() + highs.filter(|high| *high < end && self.is_inside(*high)).count()
    }

    /// Of vertex-face only a high half can be outside; the boxes of a row are so from one on.
    #[inline(always)]
    fn is_inside(&self, word: u64) -> bool {
        !self.asked.is_vertex_face || is_inside(word, &self.slab.depths)
    }

    /// In t: of the boxes of one t index first every low half, then every high one, unless these are beyond the cap.
    #[inline(never)]
    fn split_t(&mut self, boxes: &[u64], next: &mut [u64]) -> Goes<()> {
        let end = self.asked.end(self.slab.depths[0]);
        for group in boxes.chunk_by(|a, b| a >> 40 == b >> 40) {
            let low = group[0] & INDEX << 40;
            let high = low + (1 << 40);
            self.half(group, low, next)?;
            if group[0] + high < end {
                self.half(group, high, next)?;
            }
        }
        Ok(())
    }

    /// In u: the same of one t and u index, which is one row unless a box between two was lost.
    #[inline(never)]
    fn split_u(&mut self, boxes: &[u64], next: &mut [u64]) -> Goes<()> {
        for group in boxes.chunk_by(|a, b| a >> 20 == b >> 20) {
            let (low, from) = (group[0] & INDEX << 20, group[0]);
            let high = low + (1 << 20);
            if group[group.len() - 1] - from == group.len() as u64 - 1 {
                self.slab.turn_to(from >> 40);
                let mut leasts = self.slab.leasts(from + low);
                self.row(&leasts, from + low, group.len(), next)?;
                self.slab.step_u(&mut leasts);
                self.row(&leasts, from + high, group.len(), next)?;
            } else {
                self.half(group, low, next)?;
                self.half(group, high, next)?;
            }
        }
        Ok(())
    }

    /// The halves that are this much more than their boxes, row by row.
    #[inline(always)]
    fn half(&mut self, group: &[u64], more: u64, next: &mut [u64]) -> Goes<()> {
        self.slab.turn_to((group[0] + more) >> 40);
        for row in group.chunk_by(are_neighbours) {
            let from = row[0] + more;
            self.row(&self.slab.leasts(from), from, row.len(), next)?;
        }
        Ok(())
    }

    /// In v both halves stay next to each other.
    #[inline(never)]
    fn split_v(&mut self, boxes: &[u64], next: &mut [u64]) -> Goes<()> {
        for row in boxes.chunk_by(are_neighbours) {
            self.slab.turn_to(row[0] >> 40);
            let from = row[0] + (row[0] & INDEX);
            self.row(&self.slab.leasts(from), from, 2 * row.len(), next)?;
        }
        Ok(())
    }

    /// So many boxes from this one on, next to each other in v.
    #[inline(always)]
    fn row(&mut self, leasts: &Leasts, from: u64, mut boxes: usize, next: &mut [u64]) -> Goes<()> {
        while boxes > 0 && !self.is_inside(from + boxes as u64 - 1) {
            boxes -= 1;
        }
        let made = self.slab.sift(leasts, boxes, from, next, self.made);
        if self.made == 0 && made > 0 {
            match (next[0] - from) as usize {
                0 => self.record(0, from, leasts)?,
                before => self.record(before, next[0], &self.slab.leasts(next[0]))?,
            }
        }
        self.made = made;
        if boxes > self.left {
            self.left = 0;
            return Err(SPENT);
        }
        self.left -= boxes;
        Ok(())
    }

    /// The level's first survivor, with so many boxes of its row before it.
    #[inline(never)]
    fn record(&mut self, before: usize, word: u64, leasts: &Leasts) -> Goes<()> {
        if before >= self.left {
            self.left = 0;
            return Err(SPENT);
        }
        self.recorded = Recorded { word, depths: self.slab.depths };
        let answer = if self.slab.is_near(leasts) {
            MET
        } else if self.slab.depths == [self.asked.deepest; 3] {
            FLOOR
        } else {
            return Ok(());
        };
        self.left -= before + 1;
        Err(answer)
    }
}

/// In one row; the word after a row's last box may be that of the next row's first.
fn are_neighbours(a: &u64, b: &u64) -> bool {
    a + 1 == *b && b & INDEX != 0
}
