//! The library's three calls on frames and grids, and safe wrappers on slices.

use super::{Around, Call, Case, Mode};

mod boundary {
    extern "C" {
        pub fn musq_load(w: usize, h: usize, frame: *const u8, frame_n: usize) -> i64;
        pub fn musq_put(
            w: usize,
            h: usize,
            frame: *const u8,
            frame_n: usize,
            around: u8,
            image: *mut u8,
            image_n: usize,
        ) -> i64;
        pub fn musq_stage(
            word: u32,
            erode: u8,
            around: u8,
            w: usize,
            h: usize,
            from: *const u8,
            from_n: usize,
            to: *mut u8,
            to_n: usize,
        ) -> i64;
    }
}

// In all three: a slice's pointer is never null, even of an empty slice, and holds
// for its length; the borrow rules keep the image written off the bytes read.

pub fn load(w: usize, h: usize, frame: &[u8]) -> i64 {
    // SAFETY: pointers and lengths are those of live slices, see above.
    unsafe { boundary::musq_load(w, h, frame.as_ptr(), frame.len()) }
}

pub fn put(w: usize, h: usize, frame: &[u8], around: Around, image: &mut [u8]) -> i64 {
    put_by_byte((w, h), frame, around.cell(), image)
}

/// Putting with the byte that says what is around the frame as C has it.
pub fn put_by_byte((w, h): (usize, usize), frame: &[u8], around: u8, image: &mut [u8]) -> i64 {
    let (cells, n) = (frame.as_ptr(), frame.len());
    // SAFETY: pointers and lengths are those of live slices, see above.
    unsafe { boundary::musq_put(w, h, cells, n, around, image.as_mut_ptr(), image.len()) }
}

pub fn stage(word: u32, mode: Mode, size: (usize, usize), from: &[u8], to: &mut [u8]) -> i64 {
    let bytes = (u8::from(mode.erode), mode.around.cell());
    stage_by_bytes(word, bytes, size, from, to)
}

/// The single stage with the bytes that say whether to erode and what is around the frame
/// as C has them.
pub fn stage_by_bytes(
    word: u32,
    (erode, around): (u8, u8),
    (w, h): (usize, usize),
    from: &[u8],
    to: &mut [u8],
) -> i64 {
    let (cells, n, to_n) = (from.as_ptr(), from.len(), to.len());
    let made = to.as_mut_ptr();
    // SAFETY: pointers and lengths are those of live slices, see above.
    unsafe { boundary::musq_stage(word, erode, around, w, h, cells, n, made, to_n) }
}

/// The case's call, on bytes that are lent for it.
pub fn run(case: &Case, read: &[u8], write: &mut [u8]) -> i64 {
    match case.call {
        Call::Load => load(case.w, case.h, read),
        Call::Put { around } => put(case.w, case.h, read, around, write),
        Call::Stage { word, mode } => stage(word, mode, (case.w, case.h), read, write),
    }
}
