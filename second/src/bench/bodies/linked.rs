//! The proved library's calls with bounds, linked in as an object.

use super::bounded::{Calls, Lists};
use super::bounds::Kept;
use crate::bodies::{Bodies, Body};

extern "C" {
    fn taperhive_bounds(
        edition: u8,
        count: usize,
        start: *const i32,
        start_len: usize,
        end: *const i32,
        end_len: usize,
        bounds: *mut i32,
        bounds_len: usize,
    ) -> u32;
    fn taperhive_walk(
        edition: u8,
        dx: u32,
        dy: u32,
        dz: u32,
        tolerance: u32,
        budget: u32,
        a_count: usize,
        a_start: *const i32,
        a_start_len: usize,
        a_end: *const i32,
        a_end_len: usize,
        a_bounds: *const i32,
        a_bounds_len: usize,
        b_count: usize,
        b_start: *const i32,
        b_start_len: usize,
        b_end: *const i32,
        b_end_len: usize,
        b_bounds: *const i32,
        b_bounds_len: usize,
        queue: *mut u64,
        queue_len: usize,
        told: *mut u32,
        told_len: usize,
    ) -> u32;
    fn taperhive_replace(
        edition: u8,
        count: usize,
        start: *mut i32,
        start_len: usize,
        end: *mut i32,
        end_len: usize,
        bounds: *mut i32,
        bounds_len: usize,
        n: usize,
        corners: *const i32,
        corners_len: usize,
    ) -> u32;
}

pub const LINKED: Calls = Calls { bounds, walk, replace };

fn bounds(edition: u8, body: &Body, bounds: &mut [i32]) -> u32 {
    let Body { count, start, end } = *body;
    // Sound: every pointer comes from a slice of the length beside it.
    unsafe {
        taperhive_bounds(
            edition,
            count,
            start.as_ptr(),
            start.len(),
            end.as_ptr(),
            end.len(),
            bounds.as_mut_ptr(),
            bounds.len(),
        )
    }
}

fn walk(bodies: &Bodies, lists: Lists, queue: &mut [u64], told: &mut [u32]) -> u32 {
    let Bodies { edition, a, b, separations: [x, y, z], tolerance, budget } = *bodies;
    // Sound: as above.
    unsafe {
        taperhive_walk(
            edition,
            x,
            y,
            z,
            tolerance,
            budget,
            a.count,
            a.start.as_ptr(),
            a.start.len(),
            a.end.as_ptr(),
            a.end.len(),
            lists[0].as_ptr(),
            lists[0].len(),
            b.count,
            b.start.as_ptr(),
            b.start.len(),
            b.end.as_ptr(),
            b.end.len(),
            lists[1].as_ptr(),
            lists[1].len(),
            queue.as_mut_ptr(),
            queue.len(),
            told.as_mut_ptr(),
            told.len(),
        )
    }
}

fn replace(edition: u8, kept: &mut Kept, n: usize, corners: &[i32]) -> u32 {
    let (count, Kept { start, end, bounds }) = (kept.body().count, kept);
    // Sound: as above.
    unsafe {
        taperhive_replace(
            edition,
            count,
            start.as_mut_ptr(),
            start.len(),
            end.as_mut_ptr(),
            end.len(),
            bounds.as_mut_ptr(),
            bounds.len(),
            n,
            corners.as_ptr(),
            corners.len(),
        )
    }
}
