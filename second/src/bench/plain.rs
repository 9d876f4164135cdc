//! An exact search written by hand as one writes it first: eight corners a box, axis by axis, left at the first that misses.

use super::answering::{Answer, ByHand, CLEAR, FLOOR, MET, ROOM, SPENT};
use super::motion::Asked;
use super::stored::{is_inside, INDEX, SHIFTS};

/// A box's low and high t, u, v, over Q.
type Ends = [[i64; 2]; 3];

struct Search<'a> {
    asked: &'a Asked,
    count: u32,
    depths: [u32; 3],
    /// t, u, v, excess.
    recorded: [u32; 4],
}

pub struct Plain;

impl ByHand for Plain {
    const CUBE_FIRST: bool = false;

    fn search(asked: &Asked, queue: &mut [u64]) -> Answer {
        Search { asked, count: 0, depths: [0; 3], recorded: [0; 4] }.run(queue)
    }
}

impl Search<'_> {
    fn run(&mut self, queue: &mut [u64]) -> Answer {
        let (first, second) = queue.split_at_mut(queue.len() / 2);
        let half = first.len();
        let (mut present, mut next) = (first, &mut second[..half]);
        present[0] = 0;
        let mut boxes = 1;
        let mut differences = None;
        let word = loop {
            let survivors = match self.check_level(&mut present[..boxes]) {
                Ok(0) => break CLEAR,
                Ok(survivors) => survivors,
                Err(word) => break word,
            };
            let differences = differences.get_or_insert_with(|| self.asked.differences());
            let parameter = self.asked.parameter(differences, &self.depths);
            self.depths[parameter] += 1;
            match self.split(parameter, &present[..survivors], next) {
                None => break ROOM,
                Some(made) => boxes = made,
            }
            std::mem::swap(&mut present, &mut next);
        };
        let [t, u, v, excess] = if word == CLEAR { [0; 4] } else { self.recorded };
        [word, t, u, v, excess, self.count]
    }

    /// The survivors of a level, or the word that answers.
    fn check_level(&mut self, level: &mut [u64]) -> Result<usize, u32> {
        let mut survivors = 0;
        for n in 0..level.len() {
            if self.count == self.asked.budget {
                return Err(SPENT);
            }
            self.count += 1;
            let word = level[n];
            let ends = self.ends(word);
            let Some(thin) = self.check(&ends) else { continue };
            if survivors == 0 {
                self.record_first(&ends, thin)?;
            }
            level[survivors] = word;
            survivors += 1;
        }
        Ok(survivors)
    }

    #[inline(always)]
    fn ends(&self, word: u64) -> Ends {
        let mut ends = [[0; 2]; 3];
        for (n, ends) in ends.iter_mut().enumerate() {
            let side = 1 << (self.asked.deepest - self.depths[n]);
            let low = (word >> SHIFTS[n] & INDEX) as i64 * side;
            *ends = [low, low + side];
        }
        ends
    }

    /// Nothing where the box does not survive, else whether its width is within the tolerance.
    #[inline(always)]
    fn check(&self, ends: &Ends) -> Option<bool> {
        let mut thin = true;
        for axis in 0..3 {
            let (least, greatest) = self.span(axis, ends);
            let d = self.asked.separations[axis];
            if least > d || greatest < -d {
                return None;
            }
            // The width itself can be 2 to the 63.
            thin &= greatest <= least + self.asked.tolerance;
        }
        Some(thin)
    }

    /// Least and greatest of F times Q·Q over a box's eight corners, on one axis.
    #[inline(always)]
    fn span(&self, axis: usize, [t, u, v]: &Ends) -> (i64, i64) {
        let (mut least, mut greatest) = (i64::MAX, i64::MIN);
        for t in t {
            let at = |n: usize| self.asked.at(n, axis, *t);
            let (a, b, c) = (at(0) << self.asked.deepest, at(1), at(2));
            for u in u {
                for v in v {
                    let f = a + u * b + v * c;
                    least = least.min(f);
                    greatest = greatest.max(f);
                }
            }
        }
        (least, greatest)
    }

    fn record_first(&mut self, ends: &Ends, thin: bool) -> Result<(), u32> {
        self.recorded = self.asked.told(ends.map(|ends| ends[0]));
        if self.recorded[3] == 0 || thin {
            return Err(MET);
        }
        if self.depths == [self.asked.deepest; 3] {
            return Err(FLOOR);
        }
        Ok(())
    }

    /// Merges the low and the high halves; nothing where there is no room.
    fn split(&self, parameter: usize, level: &[u64], next: &mut [u64]) -> Option<usize> {
        let shift = SHIFTS[parameter];
        let index = INDEX << shift;
        let low = |word: u64| (word & !index) | (word & index) << 1;
        let end = self.asked.end(self.depths[0]);
        let (mut lows, mut highs, mut made) = (0, 0, 0);
        while highs < level.len() {
            let high = low(level[highs]) | 1 << shift;
            let word = if lows < level.len() && low(level[lows]) < high {
                lows += 1;
                low(level[lows - 1])
            } else {
                highs += 1;
                high
            };
            if word >= end || self.asked.is_vertex_face && !is_inside(word, &self.depths) {
                continue;
            }
            if made == next.len() {
                return None;
            }
            next[made] = word;
            made += 1;
        }
        Some(made)
    }
}
