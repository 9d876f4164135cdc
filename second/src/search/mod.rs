//! The search for one query, level by level.

pub mod log;

use crate::edition::Range;
use crate::gap::{corners, Motion, Q};
use crate::record::{Record, VERTEX_FACE};
use crate::refusals::{check_record, check_words, Refusal};
use log::{Checked, GridBox, LoggedLevel, Miss, Side};

/// The recorded corner of an answer, t, u, v in 1/1,048,576 parts.
#[derive(Clone, Copy, Debug, PartialEq, Eq)]
pub struct Corner {
    pub t: u32,
    pub u: u32,
    pub v: u32,
    pub excess: u32,
    pub count: u32,
}

#[derive(Clone, Copy, Debug, PartialEq, Eq)]
pub enum Answer {
    Met(Corner),
    Clear { count: u32 },
    Spent(Corner),
    Room(Corner),
    Floor(Corner),
    Refused(Refusal),
}

impl Answer {
    /// The recorded corner of an answer that has a time.
    pub fn corner(&self) -> Option<&Corner> {
        match self {
            Answer::Met(corner) | Answer::Spent(corner) => Some(corner),
            Answer::Room(corner) | Answer::Floor(corner) => Some(corner),
            Answer::Clear { .. } | Answer::Refused(_) => None,
        }
    }

    /// Boxes checked; a refused search checks none.
    pub fn count(&self) -> u32 {
        match self {
            Answer::Clear { count } => *count,
            _ => self.corner().map_or(0, |corner| corner.count),
        }
    }
}

/// What a search went through; the generators aim at it, and it says why a point was ruled out. No answer depends on it.
#[derive(Clone, Debug, PartialEq, Eq)]
pub struct Trace {
    /// Boxes of the largest level made, the one that answered ROOM included; level 0 is one box.
    pub peak: usize,
    /// The count at the end of each level of which every box was checked.
    pub level_ends: Vec<u32>,
    /// Every box checked, level by level from level 0 on.
    pub log: Vec<LoggedLevel>,
}

/// Boxes of the same depths, in ascending order of t, then u, then v index.
struct Level {
    depths: [u32; 3],
    boxes: Vec<GridBox>,
}

/// What one check of a box finds.
struct Check {
    /// The first axis that misses; nothing for a survivor.
    missed: Option<Miss>,
    width: i128,
}

/// One search under way.
struct Search<'a> {
    record: &'a Record,
    deepest: u32,
    motion: Motion,
    /// By axis, times Q·Q.
    separations: [i128; 3],
    count: u32,
    recorded: Corner,
    trace: Trace,
}

/// The answer to a record of an edition with this range, with a queue of so many words.
pub fn search(record: &Record, range: Range, words: usize) -> Answer {
    search_traced(record, range, words).0
}

/// The same answer, with what the search went through.
pub fn search_traced(record: &Record, range: Range, words: usize) -> (Answer, Trace) {
    match check_record(record, range).and_then(|()| check_words(words)) {
        Ok(()) => Search::new(record, range.deepest).run(words / 2),
        Err(refusal) => (Answer::Refused(refusal), Trace::new()),
    }
}

impl Trace {
    fn new() -> Trace {
        Trace { peak: 1, level_ends: Vec::new(), log: Vec::new() }
    }
}

impl<'a> Search<'a> {
    fn new(record: &'a Record, deepest: u32) -> Search<'a> {
        Search {
            record,
            deepest,
            motion: Motion::of(record),
            separations: record.separations.map(|d| i128::from(d) * Q * Q),
            count: 0,
            recorded: Corner { t: 0, u: 0, v: 0, excess: 0, count: 0 },
            trace: Trace::new(),
        }
    }

    fn run(mut self, half: usize) -> (Answer, Trace) {
        (self.answer(half), self.trace)
    }

    fn answer(&mut self, half: usize) -> Answer {
        let mut differences = None;
        let mut level = Level { depths: [0; 3], boxes: vec![[0; 3]] };
        loop {
            let survivors = match self.check_level(&level) {
                Ok(survivors) => survivors,
                Err(answer) => return answer,
            };
            self.trace.level_ends.push(self.count);
            if survivors.is_empty() {
                return Answer::Clear { count: self.count };
            }
            // Worked out at the first split, as most queries never come to one.
            let differences = differences.get_or_insert_with(|| self.motion.differences());
            level = self.split(level.depths, &survivors, differences);
            self.trace.peak = self.trace.peak.max(level.boxes.len());
            if level.boxes.len() > half {
                return Answer::Room(self.corner());
            }
        }
    }

    /// The survivors of a level, or the answer that ends the search inside it.
    fn check_level(&mut self, level: &Level) -> Result<Vec<GridBox>, Answer> {
        let mut survivors = Vec::new();
        self.trace.log.push(LoggedLevel { depths: level.depths, checked: Vec::new() });
        for grid_box in &level.boxes {
            if self.count == self.record.budget {
                return Err(Answer::Spent(self.corner()));
            }
            self.count += 1;
            let check = self.check(level.depths, grid_box);
            self.keep(grid_box, &check);
            if check.missed.is_some() {
                continue;
            }
            if survivors.is_empty() {
                self.record_first(level.depths, grid_box, check.width)?;
            }
            survivors.push(*grid_box);
        }
        Ok(survivors)
    }

    /// Logs a check of the level that was begun last.
    fn keep(&mut self, grid_box: &GridBox, check: &Check) {
        let level = self.trace.log.last_mut().expect("a level is logged before its boxes");
        level.checked.push(Checked { grid_box: *grid_box, missed: check.missed });
    }

    /// F at the eight corners against each axis's own separation, and the width.
    fn check(&self, depths: [u32; 3], grid_box: &GridBox) -> Check {
        let ends = [0, 1, 2].map(|n| {
            let index = grid_box[n];
            [place(depths[n], index), place(depths[n], index + 1)]
        });
        let at_corners: Vec<_> = corners(ends).into_iter().map(|c| self.motion.f(c)).collect();
        let mut check = Check { missed: None, width: 0 };
        for axis in 0..3 {
            let values = at_corners.iter().map(|f| f[axis]);
            let least = values.clone().min().expect("eight corners");
            let greatest = values.max().expect("eight corners");
            let side = beyond_side(least, greatest, self.separations[axis]);
            // x before y before z: an earlier axis stays.
            check.missed = check.missed.or(side.map(|side| Miss { axis, side }));
            check.width = check.width.max(greatest - least);
        }
        check
    }

    /// Records the low corner of a level's first survivor; an error is the answer given there.
    fn record_first(
        &mut self,
        depths: [u32; 3],
        grid_box: &GridBox,
        width: i128,
    ) -> Result<(), Answer> {
        let low = [0, 1, 2].map(|n| place(depths[n], grid_box[n]));
        let excess = round_up(self.beyond(low));
        let [t, u, v] = low.map(|part| part as u32);
        self.recorded = Corner { t, u, v, excess, count: 0 };
        if excess == 0 || width <= i128::from(self.record.tolerance) * Q * Q {
            return Err(Answer::Met(self.corner()));
        }
        if depths == [self.deepest; 3] {
            return Err(Answer::Floor(self.corner()));
        }
        Ok(())
    }

    /// The next level: both halves of every survivor, but for those outside the face and those beyond the cap.
    fn split(&self, depths: [u32; 3], survivors: &[GridBox], differences: &[i128; 3]) -> Level {
        let parameter = split_parameter(depths, self.deepest, differences);
        let mut next = depths;
        next[parameter] += 1;
        let mut boxes = Vec::new();
        for survivor in survivors {
            for upper in [0, 1] {
                let mut half = *survivor;
                half[parameter] = 2 * half[parameter] + upper;
                if !self.outside_face(next, &half) && !self.beyond_cap(next, &half) {
                    boxes.push(half);
                }
            }
        }
        boxes.sort();
        Level { depths: next, boxes }
    }

    /// For vertex-face: low u plus low v exceeds 1.
    fn outside_face(&self, depths: [u32; 3], grid_box: &GridBox) -> bool {
        self.record.kind == VERTEX_FACE
            && place(depths[1], grid_box[1]) + place(depths[2], grid_box[2]) > Q
    }

    /// Low t exceeds the cap; a cap of 0 is none.
    fn beyond_cap(&self, depths: [u32; 3], grid_box: &GridBox) -> bool {
        let cap = i128::from(self.record.cap);
        cap != 0 && place(depths[0], grid_box[0]) > cap
    }

    /// The recorded corner with the count as it stands.
    fn corner(&self) -> Corner {
        Corner { count: self.count, ..self.recorded }
    }

    /// The largest of |F| minus separation over the axes, zero if negative, times Q·Q.
    fn beyond(&self, corner: [i128; 3]) -> i128 {
        let f = self.motion.f(corner);
        let [x, y, z] = [0, 1, 2].map(|axis| f[axis].abs() - self.separations[axis]);
        0.max(x).max(y).max(z)
    }
}

/// Where the grid line of an index lies at a depth, times Q.
fn place(depth: u32, index: u32) -> i128 {
    i128::from(index) * (Q >> depth)
}

/// The side on which all of F from the least to the greatest is beyond a separation, if it is.
fn beyond_side(least: i128, greatest: i128, d: i128) -> Option<Side> {
    if least > d {
        return Some(Side::Above);
    }
    (greatest < -d).then_some(Side::Below)
}

/// A whole number over Q·Q, not negative, rounded up to a whole unit.
fn round_up(scaled: i128) -> u32 {
    let units = scaled / (Q * Q);
    let rest = scaled % (Q * Q);
    (if rest > 0 { units + 1 } else { units }) as u32
}

/// The parameter to split: largest difference over 2 to its depth, ties to t, then u.
fn split_parameter(depths: [u32; 3], deepest: u32, differences: &[i128; 3]) -> usize {
    let mut best: Option<(usize, i128)> = None;
    for parameter in 0..3 {
        if depths[parameter] == deepest {
            continue;
        }
        // Times Q, so that the division by 2 to the depth leaves no rest.
        let weight = differences[parameter] * (Q >> depths[parameter]);
        if best.is_none_or(|(_, most)| weight > most) {
            best = Some((parameter, weight));
        }
    }
    best.expect("at three greatest depths a survivor has answered").0
}

#[cfg(test)]
mod tests;
