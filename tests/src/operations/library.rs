//! The library's four operations and the call that hands back the part, and safe
//! wrappers on slices.

use super::Op;

mod boundary {
    pub type Operation = unsafe extern "C" fn(
        plan: *const u32,
        n: usize,
        w: usize,
        h: usize,
        frame: *const u8,
        frame_n: usize,
        first: *mut u8,
        first_n: usize,
        second: *mut u8,
        second_n: usize,
    ) -> i64;

    macro_rules! operations {
        ($($name:ident),*) => {
            extern "C" {
                $(pub fn $name(
                    plan: *const u32,
                    n: usize,
                    w: usize,
                    h: usize,
                    frame: *const u8,
                    frame_n: usize,
                    first: *mut u8,
                    first_n: usize,
                    second: *mut u8,
                    second_n: usize,
                ) -> i64;)*
            }
        };
    }

    operations!(musq_dilate, musq_erode, musq_open, musq_close);

    extern "C" {
        pub fn musq_part(
            stages: i64,
            w: usize,
            h: usize,
            first: *const u8,
            first_n: usize,
            second: *const u8,
            second_n: usize,
            image: *mut u8,
        ) -> i64;
    }
}

/// The operation on these lists; the images are lent for writing.
pub fn operate(
    op: Op,
    plan: &[u32],
    (w, h): (usize, usize),
    frame: &[u8],
    first: &mut [u8],
    second: &mut [u8],
) -> i64 {
    let call: boundary::Operation = match op {
        Op::Dilate => boundary::musq_dilate,
        Op::Erode => boundary::musq_erode,
        Op::Open => boundary::musq_open,
        Op::Close => boundary::musq_close,
    };
    // SAFETY: a slice's pointer is never null, even of an empty slice, and holds for
    // its length; the borrow rules keep both images off the rest and off each other.
    unsafe {
        call(
            plan.as_ptr(),
            plan.len(),
            w,
            h,
            frame.as_ptr(),
            frame.len(),
            first.as_mut_ptr(),
            first.len(),
            second.as_mut_ptr(),
            second.len(),
        )
    }
}

/// The part's length and, in `image`, the number of the image that it is the start of,
/// for what an operation answered.
pub fn part(
    stages: i64,
    (w, h): (usize, usize),
    first: &[u8],
    second: &[u8],
    image: &mut u8,
) -> i64 {
    let (one, one_n) = (first.as_ptr(), first.len());
    let (two, two_n) = (second.as_ptr(), second.len());
    // SAFETY: pointers and lengths are those of live slices, and `image` is a live
    // byte, which the borrow rules keep off both images.
    unsafe { boundary::musq_part(stages, w, h, one, one_n, two, two_n, image) }
}
