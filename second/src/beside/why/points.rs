//! Points worth asking about: anywhere, at the boundaries of boxes, around the answered time and the cap, at 1, and outside the domain.

use crate::record::VERTEX_FACE;
use crate::rng::Rng;
use crate::search::log::{Checked, GridBox, LoggedLevel};
use crate::why::{Parts, Searched, ONE};

/// Some boxes of a level, at least one.
struct Boxes {
    depths: [u32; 3],
    boxes: Vec<GridBox>,
}

/// Points by what a search went through.
pub struct Points<'a> {
    searched: &'a Searched,
    /// All boxes that were checked.
    checked: Vec<Boxes>,
    /// Those that rule out a point: discarded, and from before the answered time.
    discarded: Vec<Boxes>,
}

impl<'a> Points<'a> {
    pub fn of(searched: &'a Searched) -> Points<'a> {
        let end = searched.answer.corner().map_or(ONE + 1, |corner| corner.t);
        let rules_out = |level: &LoggedLevel, checked: &Checked| {
            checked.missed.is_some() && checked.grid_box[0] * (ONE >> level.depths[0]) < end
        };
        let checked = boxes(&searched.log, |_, _| true);
        Points { searched, checked, discarded: boxes(&searched.log, rules_out) }
    }

    /// Levels whose boxes rule out a point.
    pub fn levels(&self) -> usize {
        self.discarded.len()
    }

    /// A point of any sort.
    pub fn draw(&self, rng: &mut Rng) -> Parts {
        if self.searched.record.cap != 0 && rng.one_in(4) {
            return self.around_the_cap(rng);
        }
        match rng.below(16) {
            0..=3 => any(rng),
            4 => self.before(rng),
            5 => self.long_side(rng),
            6 => self.at_one(rng),
            7 | 8 => self.around_the_answer(rng),
            _ => self.near_a_box(rng),
        }
    }

    /// Anywhere before the answered time, where there is such a moment, else up to the cap.
    fn before(&self, rng: &mut Rng) -> Parts {
        let [_, u, v] = anywhere(rng);
        let whole = if self.searched.record.cap == 0 { ONE } else { self.searched.record.cap };
        let last = self.searched.answer.corner().map_or(whole, |corner| corner.t.saturating_sub(1));
        [up_to(rng, last), u, v]
    }

    /// The cap, one part before it and one behind it, or anywhere behind it.
    fn around_the_cap(&self, rng: &mut Rng) -> Parts {
        let cap = self.searched.record.cap;
        let [_, u, v] = anywhere(rng);
        let behind = cap + up_to(rng, ONE - cap);
        [rng.pick(&[cap - 1, cap, cap, cap + 1, behind]), u, v]
    }

    /// The answered time, one part before it and one behind it, at the recorded corner and elsewhere.
    fn around_the_answer(&self, rng: &mut Rng) -> Parts {
        let Some(corner) = self.searched.answer.corner() else { return self.before(rng) };
        let [_, u, v] = anywhere(rng);
        let t = rng.pick(&[corner.t.saturating_sub(1), corner.t, corner.t + 1]);
        rng.pick(&[[t, corner.u, corner.v], [t, u, v], [t, 0, 0]])
    }

    /// u + v is 1, one part less, or one more.
    fn long_side(&self, rng: &mut Rng) -> Parts {
        let [t, u, _] = self.before(rng);
        let v = ONE - u;
        [t, u, rng.pick(&[v, v, v.saturating_sub(1), v + 1])]
    }

    /// Some of t, u, v are 1.
    fn at_one(&self, rng: &mut Rng) -> Parts {
        let point = self.near_a_box(rng);
        let ones = 1 + rng.below(7);
        self.onto_the_face([0, 1, 2].map(|n| if ones >> n & 1 == 1 { ONE } else { point[n] }))
    }

    /// At an end of a box that was checked, one part before it, or inside.
    fn near_a_box(&self, rng: &mut Rng) -> Parts {
        // Nothing is ruled out where the answered time is 0.
        let all = self.discarded.is_empty() || rng.one_in(8);
        let levels = if all { &self.checked } else { &self.discarded };
        let Boxes { depths, boxes } = &levels[rng.below(levels.len())];
        let grid_box = rng.pick(boxes);
        let near = [0, 1, 2].map(|n| {
            let side = ONE >> depths[n];
            let low = grid_box[n] * side;
            let (inside, high) = (low + up_to(rng, side - 1), low + side);
            rng.pick(&[low, low, low, low.saturating_sub(1), inside, high - 1, high])
        });
        self.onto_the_face(near)
    }

    /// v taken back to where u + v is 1, for a face.
    fn onto_the_face(&self, [t, u, v]: Parts) -> Parts {
        if self.searched.record.kind == VERTEX_FACE {
            return [t, u, v.min(ONE - u)];
        }
        [t, u, v]
    }
}

/// The boxes that are wanted, of the levels that have some.
fn boxes(log: &[LoggedLevel], wanted: impl Fn(&LoggedLevel, &Checked) -> bool) -> Vec<Boxes> {
    let of_level = |level: &LoggedLevel| {
        let found = level.checked.iter().filter(|checked| wanted(level, checked));
        Boxes { depths: level.depths, boxes: found.map(|checked| checked.grid_box).collect() }
    };
    log.iter().map(of_level).filter(|level| !level.boxes.is_empty()).collect()
}

/// A point of any sort that needs no search.
pub fn any(rng: &mut Rng) -> Parts {
    match rng.below(4) {
        0 => corner_of_the_cube(rng),
        1 => far(rng),
        2 => wrapping(rng),
        _ => anywhere(rng),
    }
}

/// 0 up to and including this.
fn up_to(rng: &mut Rng, most: u32) -> u32 {
    rng.below(most as usize + 1) as u32
}

/// Anywhere where u + v is at most 1.
fn anywhere(rng: &mut Rng) -> Parts {
    let u = up_to(rng, ONE);
    [up_to(rng, ONE), u, up_to(rng, ONE - u)]
}

/// t, u, v each 0 or 1, so that u + v may be 2.
fn corner_of_the_cube(rng: &mut Rng) -> Parts {
    [(); 3].map(|()| rng.pick(&[0, 0, ONE]))
}

/// One of t, u, v beyond 1.
fn far(rng: &mut Rng) -> Parts {
    let mut point = anywhere(rng);
    let any = rng.draw() as u32;
    point[rng.below(3)] = rng.pick(&[ONE + 1, ONE + 1, 1 << 31, u32::MAX, any]);
    point
}

/// u + v, cut to 32 bits, is 0 to 1.
fn wrapping(rng: &mut Rng) -> Parts {
    let [t, rest, _] = anywhere(rng);
    let any = rng.draw() as u32;
    let u = rng.pick(&[1, ONE, 1 << 31, u32::MAX, any]);
    [t, u, rng.pick(&[0, rest]).wrapping_sub(u)]
}
