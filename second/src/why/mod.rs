//! Why a point was ruled out: the first box on the way down to it that the search discarded.

pub mod text;

use crate::edition::Range;
use crate::record::{Record, VERTEX_FACE};
use crate::refusals::Refusal;
use crate::search::log::{GridBox, LoggedLevel, Miss};
use crate::search::{search_traced, Answer};

/// Parts of a parameter from 0 to 1.
pub const ONE: u32 = 1 << 20;
/// Numbers told: level, depths of t, u, v, indices of t, u, v, axis (0 x, 1 y, 2 z), side (0 below, 1 above).
pub const TOLD: usize = 9;

/// A moment and place: t, u, v in 1/1,048,576 parts, which may be any numbers.
pub type Parts = [u32; 3];

/// A box that the search checked and discarded, and why.
#[derive(Clone, Copy, Debug, PartialEq, Eq)]
pub struct Discarded {
    pub level: usize,
    pub depths: [u32; 3],
    pub grid_box: GridBox,
    pub miss: Miss,
}

/// A record that the search has answered, ready to be asked about any point.
pub struct Searched {
    pub record: Record,
    pub answer: Answer,
    /// Every box checked, level by level.
    pub log: Vec<LoggedLevel>,
}

impl Discarded {
    pub fn told(&self) -> [u32; TOLD] {
        let [kt, ku, kv] = self.depths;
        let [t, u, v] = self.grid_box;
        let Miss { axis, side } = self.miss;
        [self.level as u32, kt, ku, kv, t, u, v, axis as u32, side as u32]
    }
}

impl Searched {
    /// Refusals 1 to 6, 22, 7.
    pub fn of(record: &Record, range: Range, words: usize) -> Result<Searched, Refusal> {
        match search_traced(record, range, words) {
            (Answer::Refused(refusal), _) => Err(refusal),
            (answer, trace) => Ok(Searched { record: *record, answer, log: trace.log }),
        }
    }

    /// Refusals 23, then 24.
    pub fn why(&self, point: Parts) -> Result<Discarded, Refusal> {
        self.check_inside(point)?;
        // CLEAR has no time and rules out every point up to the cap.
        if self.answer.corner().is_some_and(|corner| point[0] >= corner.t) {
            return Err(Refusal::NotRuledOut);
        }
        Ok(self.discarded(point))
    }

    /// What is told where so many numbers are lent: 14 stands between 23 and 24.
    pub fn tell(&self, point: Parts, lent: usize) -> Result<[u32; TOLD], Refusal> {
        self.check_inside(point)?;
        if lent < TOLD {
            return Err(Refusal::Space);
        }
        self.why(point).map(|discarded| discarded.told())
    }

    /// Refusal 23.
    fn check_inside(&self, [t, u, v]: Parts) -> Result<(), Refusal> {
        // Wider than its summands, so that no sum wraps into the face.
        let sum = u64::from(u) + u64::from(v);
        let off_the_face = self.record.kind == VERTEX_FACE && sum > u64::from(ONE);
        let cap = self.record.cap;
        let beyond_cap = cap != 0 && t > cap;
        if t.max(u).max(v) > ONE || off_the_face || beyond_cap {
            return Err(Refusal::Outside);
        }
        Ok(())
    }

    /// From the whole cube down, one level at a time, to the first box that was discarded.
    fn discarded(&self, point: Parts) -> Discarded {
        let mut depths = [0; 3];
        let mut grid_box = [0; 3];
        for (level, logged) in self.log.iter().enumerate() {
            grid_box = half(depths, logged.depths, grid_box, point);
            depths = logged.depths;
            let found = logged.checked.iter().find(|checked| checked.grid_box == grid_box);
            // A box that the search did not reach must not be named.
            let checked = found.expect("the search checked the box");
            if let Some(miss) = checked.missed {
                return Discarded { level, depths, grid_box, miss };
            }
        }
        panic!("the search discarded no box of {point:?}");
    }
}

/// Of the two halves into which a box was split between these depths, the one that holds the point: on their boundary the upper one.
fn half(before: [u32; 3], after: [u32; 3], mut grid_box: GridBox, point: Parts) -> GridBox {
    for parameter in (0..3).filter(|n| after[*n] > before[*n]) {
        let upper = 2 * grid_box[parameter] + 1;
        // 1 itself lies in the last box, as no boundary between two halves is there.
        let is_upper = point[parameter] >= upper * (ONE >> after[parameter]);
        grid_box[parameter] = if is_upper { upper } else { upper - 1 };
    }
    grid_box
}
