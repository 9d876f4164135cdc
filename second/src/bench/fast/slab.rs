//! What all boxes of a level with one t index share, and a row of them checked: neighbours in v are one addition apart.

use crate::bench::motion::{Asked, Axes};
use crate::bench::stored::INDEX;

/// A row of so many boxes is short.
const FEW: usize = 2;
/// No t index, and none comes after it.
const NONE: u64 = u64::MAX - 1;

/// At one end of a t index. On the fourth axis every box survives.
#[derive(Clone, Copy)]
struct Moment {
    /// What F gains with the next u index, and with the next v index.
    u_step: Axes,
    v_step: Axes,
    /// The least of F over the cell at u and v index 0, less separation and 1: negative where it comes within from above.
    least: Axes,
    /// From there to the greatest of F plus separation: that sum is not negative where it comes within from below.
    width: Axes,
}

const NO_MOMENT: Moment = Moment { u_step: [0; 4], v_step: [0; 4], least: [-1; 4], width: [1; 4] };

impl Moment {
    #[inline(always)]
    fn new(asked: &Asked, depths: &[u32; 3], t: u64) -> Moment {
        let [left_t, left_u, left_v] = depths.map(|depth| asked.deepest - depth);
        let t = (t as i64) << left_t;
        let mut moment = NO_MOMENT;
        for axis in 0..3 {
            let at = |n: usize| asked.at(n, axis, t);
            let (b, c) = (at(1) << left_u, at(2) << left_v);
            let d = asked.separations[axis];
            moment.u_step[axis] = b;
            moment.v_step[axis] = c;
            moment.least[axis] = (at(0) << asked.deepest) + b.min(0) + c.min(0) - d - 1;
            moment.width[axis] = b.abs() + c.abs() + 2 * d + 1;
        }
        moment
    }

    #[inline(always)]
    fn halve_u(&mut self) {
        halve(&mut self.u_step, &mut self.least, &mut self.width);
    }

    #[inline(always)]
    fn halve_v(&mut self) {
        halve(&mut self.v_step, &mut self.least, &mut self.width);
    }
}

/// With half a step the cell at index 0 is half as long: what one t index shares lasts over levels without a product.
#[inline(always)]
fn halve(step: &mut Axes, least: &mut Axes, width: &mut Axes) {
    for axis in 0..4 {
        step[axis] >>= 1;
        least[axis] -= step[axis].min(0);
        width[axis] -= step[axis].abs();
    }
}

/// The boxes' least values, as of `Moment`, at both ends of the t index.
pub type Leasts = [Axes; 2];

pub struct Slab<'a> {
    asked: &'a Asked,
    pub depths: [u32; 3],
    t: u64,
    ends: [Moment; 2],
}

impl<'a> Slab<'a> {
    pub fn new(asked: &'a Asked) -> Slab<'a> {
        let depths = [0; 3];
        let ends = [Moment::new(asked, &depths, 0), Moment::new(asked, &depths, 1)];
        Slab { asked, depths, t: 0, ends }
    }

    /// Begins the next level.
    #[inline(always)]
    pub fn deepen(&mut self, parameter: usize) {
        for (n, depth) in self.depths.iter_mut().enumerate() {
            *depth += u32::from(n == parameter);
        }
        match parameter {
            0 => self.t = NONE,
            1 => self.ends.iter_mut().for_each(Moment::halve_u),
            _ => self.ends.iter_mut().for_each(Moment::halve_v),
        }
    }

    #[inline(always)]
    pub fn turn_to(&mut self, t: u64) {
        if t != self.t {
            self.turn(t);
        }
    }

    /// The later end of one t index is the earlier of the next.
    #[inline(never)]
    fn turn(&mut self, t: u64) {
        self.ends[0] =
            if t == self.t + 1 { self.ends[1] } else { Moment::new(self.asked, &self.depths, t) };
        self.ends[1] = Moment::new(self.asked, &self.depths, t + 1);
        self.t = t;
    }

    #[inline(always)]
    pub fn leasts(&self, word: u64) -> Leasts {
        let (u, v) = ((word >> 20 & INDEX) as i64, (word & INDEX) as i64);
        let mut leasts = [NO_MOMENT.least; 2];
        for (leasts, end) in leasts.iter_mut().zip(&self.ends) {
            for (axis, least) in leasts.iter_mut().enumerate().take(3) {
                *least = end.least[axis] + u * end.u_step[axis] + v * end.v_step[axis];
            }
        }
        leasts
    }

    /// On to the next u index.
    #[inline(always)]
    pub fn step_u(&self, leasts: &mut Leasts) {
        for (leasts, end) in leasts.iter_mut().zip(&self.ends) {
            for (least, step) in leasts.iter_mut().zip(&end.u_step) {
                *least += step;
            }
        }
    }

    /// Puts the survivors of a row behind those made: so many boxes from this one on, next to each other in v.
    #[inline(always)]
    pub fn sift(
        &self,
        leasts: &Leasts,
        boxes: usize,
        from: u64,
        next: &mut [u64],
        made: usize,
    ) -> usize {
        if boxes <= FEW {
            self.sift_on::<3>(leasts, boxes, from, next, made)
        } else {
            self.sift_many(leasts, boxes, from, next, made)
        }
    }

    /// By itself: four axes go through memory to be taken at once, which few boxes are not worth.
    #[inline(never)]
    fn sift_many(
        &self,
        leasts: &Leasts,
        boxes: usize,
        from: u64,
        next: &mut [u64],
        made: usize,
    ) -> usize {
        self.sift_on::<4>(leasts, boxes, from, next, made)
    }

    #[inline(always)]
    fn sift_on<const AXES: usize>(
        &self,
        leasts: &Leasts,
        boxes: usize,
        from: u64,
        next: &mut [u64],
        mut made: usize,
    ) -> usize {
        let [mut start, mut end] = *leasts;
        let [s, e] = self.ends;
        for word in from..from + boxes as u64 {
            // Negative where every axis is; no branch.
            let mut survives = -1;
            for n in 0..AXES {
                let greatest = (start[n] + s.width[n]) & (end[n] + e.width[n]);
                survives &= (start[n] | end[n]) & !greatest;
                start[n] += s.v_step[n];
                end[n] += e.v_step[n];
            }
            next[made] = word;
            made += usize::from(survives < 0);
        }
        made
    }

    /// Whether F is within the separation at the low corner of a box, or its width within the tolerance.
    pub fn is_near(&self, [start, end]: &Leasts) -> bool {
        let [from, to] = &self.ends;
        let (mut within, mut thin) = (true, true);
        for axis in 0..3 {
            let d = self.asked.separations[axis];
            let (s, e) = (start[axis], end[axis]);
            let corner = s + d + 1 - from.u_step[axis].min(0) - from.v_step[axis].min(0);
            within &= corner.abs() <= d;
            let greatest = (s + from.width[axis]).max(e + to.width[axis]);
            thin &= greatest <= s.min(e) + self.asked.tolerance + 2 * d + 1;
        }
        within || thin
    }
}
