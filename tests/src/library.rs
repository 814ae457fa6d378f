//! The library's five calls on lists, with safe wrappers on slices, and its call on a mask.

use crate::cases::Call;

mod boundary {
    extern "C" {
        pub fn musq_shape_of_plan(plan: *const u32, n: usize, out: *mut u32, out_n: usize) -> i64;
        pub fn musq_move(
            shape: *const u32,
            n: usize,
            dx: i32,
            dy: i32,
            out: *mut u32,
            out_n: usize,
        ) -> i64;
        pub fn musq_join(
            a: *const u32,
            an: usize,
            b: *const u32,
            bn: usize,
            out: *mut u32,
            out_n: usize,
        ) -> i64;
        pub fn musq_sum(
            a: *const u32,
            an: usize,
            b: *const u32,
            bn: usize,
            out: *mut u32,
            out_n: usize,
        ) -> i64;
        pub fn musq_plan(shape: *const u32, n: usize, out: *mut u32, out_n: usize) -> i64;
        pub fn musq_normal_position(mask: u16) -> u16;
    }
}

// In the five on lists: a slice's pointer is never null, even of an empty slice, and
// holds for its length; the borrow rules keep the output off the inputs.

pub fn shape_of_plan(plan: &[u32], out: &mut [u32]) -> i64 {
    // SAFETY: pointers and lengths are those of live slices, see above.
    unsafe { boundary::musq_shape_of_plan(plan.as_ptr(), plan.len(), out.as_mut_ptr(), out.len()) }
}

pub fn move_shape(shape: &[u32], dx: i32, dy: i32, out: &mut [u32]) -> i64 {
    let (words, n) = (shape.as_ptr(), shape.len());
    // SAFETY: pointers and lengths are those of live slices, see above.
    unsafe { boundary::musq_move(words, n, dx, dy, out.as_mut_ptr(), out.len()) }
}

pub fn join(a: &[u32], b: &[u32], out: &mut [u32]) -> i64 {
    let (first, second) = (a.as_ptr(), b.as_ptr());
    // SAFETY: pointers and lengths are those of live slices, see above.
    unsafe { boundary::musq_join(first, a.len(), second, b.len(), out.as_mut_ptr(), out.len()) }
}

pub fn sum(a: &[u32], b: &[u32], out: &mut [u32]) -> i64 {
    let (first, second) = (a.as_ptr(), b.as_ptr());
    // SAFETY: pointers and lengths are those of live slices, see above.
    unsafe { boundary::musq_sum(first, a.len(), second, b.len(), out.as_mut_ptr(), out.len()) }
}

pub fn plan(shape: &[u32], out: &mut [u32]) -> i64 {
    // SAFETY: pointers and lengths are those of live slices, see above.
    unsafe { boundary::musq_plan(shape.as_ptr(), shape.len(), out.as_mut_ptr(), out.len()) }
}

/// The normal position of a mask.
pub fn normal_position(mask: u16) -> u16 {
    // SAFETY: the call takes a number and gives a number, and no memory is lent.
    unsafe { boundary::musq_normal_position(mask) }
}

/// The call on these lists; `b` and `offset` are passed over where it takes none.
pub fn run(call: Call, a: &[u32], b: &[u32], offset: (i32, i32), out: &mut [u32]) -> i64 {
    match call {
        Call::ShapeOfPlan => shape_of_plan(a, out),
        Call::Move => move_shape(a, offset.0, offset.1, out),
        Call::Join => join(a, b, out),
        Call::Sum => sum(a, b, out),
        Call::Plan => plan(a, out),
    }
}
