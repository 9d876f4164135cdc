//! The proved library, linked in as an object.

use super::Library;
use crate::parameters;

extern "C" {
    fn taperhive_answer(
        file: *const u8,
        file_len: usize,
        n: usize,
        queue: *mut u64,
        queue_len: usize,
        told: *mut u32,
        told_len: usize,
    ) -> u32;
    fn taperhive_answers(
        file: *const u8,
        file_len: usize,
        queue: *mut u64,
        queue_len: usize,
        told: *mut u32,
        told_len: usize,
    ) -> u32;
    fn taperhive_count(file: *const u8, file_len: usize, count: *mut u32, count_len: usize) -> u32;
    fn taperhive_copy(
        file: *const u8,
        file_len: usize,
        n: usize,
        edition: u8,
        out: *mut u8,
        out_len: usize,
        at: usize,
    ) -> u32;
    fn taperhive_trailer(out: *mut u8, out_len: usize, at: usize, edition: u8, count: u32) -> u32;
    fn taperhive_write(
        out: *mut u8,
        out_len: usize,
        at: usize,
        edition: u8,
        kind: u8,
        flags: u8,
        id: u32,
        dx: u32,
        dy: u32,
        dz: u32,
        tolerance: u32,
        budget: u32,
        cap: u32,
        points: *const i32,
        points_len: usize,
    ) -> u32;
    fn taperhive_pair(
        edition: u8,
        kind: u8,
        flags: u8,
        id: u32,
        dx: u32,
        dy: u32,
        dz: u32,
        tolerance: u32,
        budget: u32,
        cap: u32,
        points: *const i32,
        points_len: usize,
        queue: *mut u64,
        queue_len: usize,
        told: *mut u32,
        told_len: usize,
    ) -> u32;
    fn taperhive_bodies(
        edition: u8,
        dx: u32,
        dy: u32,
        dz: u32,
        tolerance: u32,
        budget: u32,
        a_count: usize,
        a_start: *const i32,
        a_start_len: usize,
        a_end: *const i32,
        a_end_len: usize,
        b_count: usize,
        b_start: *const i32,
        b_start_len: usize,
        b_end: *const i32,
        b_end_len: usize,
        queue: *mut u64,
        queue_len: usize,
        told: *mut u32,
        told_len: usize,
    ) -> u32;
    fn taperhive_why(
        file: *const u8,
        file_len: usize,
        n: usize,
        t: u32,
        u: u32,
        v: u32,
        queue: *mut u64,
        queue_len: usize,
        told: *mut u32,
        told_len: usize,
    ) -> u32;
}

macro_rules! declared {
    ($function:ident; $($name:ident: $type:ty),*) => {
        extern "C" {
            fn $function($($name: $type),*) -> u32;
        }
    };
}

parameters!(bounds to declared taperhive_bounds);
parameters!(walk to declared taperhive_walk);
parameters!(replace to declared taperhive_replace);
parameters!(log_write to declared taperhive_log_write);
parameters!(log_trailer to declared taperhive_log_trailer);
parameters!(log_read to declared taperhive_log_read);
parameters!(log_count to declared taperhive_log_count);
parameters!(matched to declared taperhive_match);
parameters!(log to declared taperhive_log);

pub fn library() -> Library {
    Library {
        answer: taperhive_answer,
        answers: taperhive_answers,
        count: taperhive_count,
        copy: taperhive_copy,
        trailer: taperhive_trailer,
        write: taperhive_write,
        pair: taperhive_pair,
        bodies: taperhive_bodies,
        why: taperhive_why,
        bounds: taperhive_bounds,
        walk: taperhive_walk,
        replace: taperhive_replace,
        log_write: taperhive_log_write,
        log_trailer: taperhive_log_trailer,
        log_read: taperhive_log_read,
        log_count: taperhive_log_count,
        matched: taperhive_match,
        log: taperhive_log,
    }
}
