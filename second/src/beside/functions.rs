//! The types of the C functions under test.

/// File, queue, told; a slice is a pointer and then a length.
pub type Answers = unsafe extern "C" fn(*const u8, usize, *mut u64, usize, *mut u32, usize) -> u32;
/// File, number of the record, queue, told.
pub type OneAnswer =
    unsafe extern "C" fn(*const u8, usize, usize, *mut u64, usize, *mut u32, usize) -> u32;
/// File, number of the record, t, u, v, queue, told.
pub type Why = unsafe extern "C" fn(
    *const u8,
    usize,
    usize,
    u32,
    u32,
    u32,
    *mut u64,
    usize,
    *mut u32,
    usize,
) -> u32;
/// File, count.
pub type Count = unsafe extern "C" fn(*const u8, usize, *mut u32, usize) -> u32;
/// File, number of the record, edition, buffer, place.
pub type Copied = unsafe extern "C" fn(*const u8, usize, usize, u8, *mut u8, usize, usize) -> u32;
/// Buffer, place, edition, count.
pub type Trailer = unsafe extern "C" fn(*mut u8, usize, usize, u8, u32) -> u32;

/// Buffer, place, edition; kind, flags, id, separations, tolerance, budget, cap; points.
pub type Write = unsafe extern "C" fn(
    *mut u8,
    usize,
    usize,
    u8,
    u8,
    u8,
    u32,
    u32,
    u32,
    u32,
    u32,
    u32,
    u32,
    *const i32,
    usize,
) -> u32;

/// Edition; kind, flags, id, separations, tolerance, budget, cap; points; queue; told.
pub type Pair = unsafe extern "C" fn(
    u8,
    u8,
    u8,
    u32,
    u32,
    u32,
    u32,
    u32,
    u32,
    u32,
    *const i32,
    usize,
    *mut u64,
    usize,
    *mut u32,
    usize,
) -> u32;

/// Edition; separations, tolerance, budget; A's count, start, end; B's; queue; told.
pub type TwoBodies = unsafe extern "C" fn(
    u8,
    u32,
    u32,
    u32,
    u32,
    u32,
    usize,
    *const i32,
    usize,
    *const i32,
    usize,
    usize,
    *const i32,
    usize,
    *const i32,
    usize,
    *mut u64,
    usize,
    *mut u32,
    usize,
) -> u32;

/// Hands the parameters of a C function to another macro, behind what that is given besides. They stand here alone: the type, the
/// declaration and a stub are made of them.
#[macro_export]
macro_rules! parameters {
    (bounds to $macro:ident $($besides:tt)*) => {
        $macro! { $($besides)*;
            edition: u8,
            count: usize, start: *const i32, start_len: usize, end: *const i32, end_len: usize,
            bounds: *mut i32, bounds_len: usize
        }
    };
    (walk to $macro:ident $($besides:tt)*) => {
        $macro! { $($besides)*;
            edition: u8, dx: u32, dy: u32, dz: u32, tolerance: u32, budget: u32,
            a_count: usize, a_start: *const i32, a_start_len: usize, a_end: *const i32, a_end_len: usize,
            a_bounds: *const i32, a_bounds_len: usize,
            b_count: usize, b_start: *const i32, b_start_len: usize, b_end: *const i32, b_end_len: usize,
            b_bounds: *const i32, b_bounds_len: usize,
            queue: *mut u64, queue_len: usize, told: *mut u32, told_len: usize
        }
    };
    (replace to $macro:ident $($besides:tt)*) => {
        $macro! { $($besides)*;
            edition: u8,
            count: usize, start: *mut i32, start_len: usize, end: *mut i32, end_len: usize,
            bounds: *mut i32, bounds_len: usize,
            n: usize, corners: *const i32, corners_len: usize
        }
    };
    (log_write to $macro:ident $($besides:tt)*) => {
        $macro! { $($besides)*;
            out: *mut u8, out_len: usize, at: usize, told: *const u32, told_len: usize
        }
    };
    (log_trailer to $macro:ident $($besides:tt)*) => {
        $macro! { $($besides)*; out: *mut u8, out_len: usize, at: usize, count: u32 }
    };
    (log_read to $macro:ident $($besides:tt)*) => {
        $macro! { $($besides)*;
            log: *const u8, log_len: usize, n: usize, told: *mut u32, told_len: usize
        }
    };
    (log_count to $macro:ident $($besides:tt)*) => {
        $macro! { $($besides)*; log: *const u8, log_len: usize, told: *mut u32, told_len: usize }
    };
    (matched to $macro:ident $($besides:tt)*) => {
        $macro! { $($besides)*; file: *const u8, file_len: usize, log: *const u8, log_len: usize }
    };
    (log to $macro:ident $($besides:tt)*) => {
        $macro! { $($besides)*;
            file: *const u8, file_len: usize, queue: *mut u64, queue_len: usize,
            out: *mut u8, out_len: usize
        }
    };
}

/// A function's type, and its arguments by their names.
macro_rules! function {
    ($function:ident $arguments:ident; $($name:ident: $type:ty),*) => {
        pub type $function = unsafe extern "C" fn($($type),*) -> u32;

        #[derive(Clone, Copy)]
        pub struct $arguments {
            $(pub $name: $type),*
        }

        impl $arguments {
            /// # Safety
            /// Every pointer must reach as many elements as the length behind it says.
            pub unsafe fn call(self, function: $function) -> u32 {
                function($(self.$name),*)
            }
        }
    };
}

parameters!(bounds to function Bounds BoundsArguments);
parameters!(walk to function BoundedWalk WalkArguments);
parameters!(replace to function Replace ReplaceArguments);
parameters!(log_write to function LogWrite LogWriteArguments);
parameters!(log_trailer to function LogTrailer LogTrailerArguments);
parameters!(log_read to function LogRead LogReadArguments);
parameters!(log_count to function LogCount LogCountArguments);
parameters!(matched to function Matched MatchedArguments);
parameters!(log to function Log LogArguments);
