//! The library's call for the load in ten-thousandths, and safe wrappers.

use std::ptr::null;

mod boundary {
    extern "C" {
        pub fn musq_share(
            w: usize,
            h: usize,
            frame: *const u8,
            frame_n: usize,
            remainder: *mut u32,
        ) -> i64;
    }
}

/// The quotient or a refusal; the remainder is lent for writing.
pub fn share((w, h): (usize, usize), frame: &[u8], remainder: &mut u32) -> i64 {
    // SAFETY: a slice's pointer is never null, even of an empty slice, and holds for
    // its length; the borrow rules keep the remainder off the frame.
    unsafe { boundary::musq_share(w, h, frame.as_ptr(), frame.len(), remainder) }
}

/// The same of a frame of no bytes, whose pointer is null.
pub fn share_of_null((w, h): (usize, usize), remainder: &mut u32) -> i64 {
    // SAFETY: the pointer may be null where there are no bytes.
    unsafe { boundary::musq_share(w, h, null(), 0, remainder) }
}
