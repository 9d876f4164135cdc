//! The library's functions on bodies with bounds, called with slices.

use crate::beside::functions::{BoundsArguments, ReplaceArguments, WalkArguments};
use crate::beside::Library;
use crate::bodies::{Bodies, Body};

/// A body with its bounds, lent to be changed.
pub struct LentBody<'a> {
    pub count: usize,
    pub start: &'a mut [i32],
    pub end: &'a mut [i32],
    pub bounds: &'a mut [i32],
}

impl Library {
    pub fn bounds(&self, edition: u8, body: &Body, bounds: &mut [i32]) -> u32 {
        let arguments = BoundsArguments {
            edition,
            count: body.count,
            start: body.start.as_ptr(),
            start_len: body.start.len(),
            end: body.end.as_ptr(),
            end_len: body.end.len(),
            bounds_len: bounds.len(),
            bounds: bounds.as_mut_ptr(),
        };
        // Sound: every pointer comes from a slice of the length beside it; edition and count may be any numbers.
        unsafe { arguments.call(self.bounds) }
    }

    pub fn walk(
        &self,
        bodies: &Bodies,
        [a_bounds, b_bounds]: [&[i32]; 2],
        queue: &mut [u64],
        told: &mut [u32],
    ) -> u32 {
        let Bodies { edition, a, b, separations: [dx, dy, dz], tolerance, budget } = *bodies;
        let arguments = WalkArguments {
            edition,
            dx,
            dy,
            dz,
            tolerance,
            budget,
            a_count: a.count,
            a_start: a.start.as_ptr(),
            a_start_len: a.start.len(),
            a_end: a.end.as_ptr(),
            a_end_len: a.end.len(),
            a_bounds: a_bounds.as_ptr(),
            a_bounds_len: a_bounds.len(),
            b_count: b.count,
            b_start: b.start.as_ptr(),
            b_start_len: b.start.len(),
            b_end: b.end.as_ptr(),
            b_end_len: b.end.len(),
            b_bounds: b_bounds.as_ptr(),
            b_bounds_len: b_bounds.len(),
            queue_len: queue.len(),
            queue: queue.as_mut_ptr(),
            told_len: told.len(),
            told: told.as_mut_ptr(),
        };
        // Sound: as above.
        unsafe { arguments.call(self.walk) }
    }

    pub fn replace(&self, edition: u8, body: LentBody, n: usize, corners: &[i32]) -> u32 {
        let LentBody { count, start, end, bounds } = body;
        let arguments = ReplaceArguments {
            edition,
            count,
            start_len: start.len(),
            start: start.as_mut_ptr(),
            end_len: end.len(),
            end: end.as_mut_ptr(),
            bounds_len: bounds.len(),
            bounds: bounds.as_mut_ptr(),
            n,
            corners: corners.as_ptr(),
            corners_len: corners.len(),
        };
        // Sound: as above; n may be any number.
        unsafe { arguments.call(self.replace) }
    }
}
