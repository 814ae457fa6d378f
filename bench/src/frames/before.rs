//! The frame calls of another build of the library, and safe wrappers on slices. The
//! build script gives its archive and names its symbols anew.

use musqerpi_tests::frames::{Around, Mode};
use musqerpi_tests::operations::Op;

/// Whether the build has the second kind of grid. One that hasn't takes no kind in putting
/// and in the single stage.
pub const KNOWS_SECOND: bool = cfg!(not(feature = "before_first_kind"));

mod boundary {
    pub type Operation = unsafe extern "C" fn(
        plan: *const u32,
        n: usize,
        w: usize,
        h: usize,
        frame: *const u8,
        frame_n: usize,
        first: *mut u8,
        first_n: usize,
        second: *mut u8,
        second_n: usize,
    ) -> i64;

    macro_rules! operations {
        ($($name:ident),*) => {
            extern "C" {
                $(pub fn $name(
                    plan: *const u32,
                    n: usize,
                    w: usize,
                    h: usize,
                    frame: *const u8,
                    frame_n: usize,
                    first: *mut u8,
                    first_n: usize,
                    second: *mut u8,
                    second_n: usize,
                ) -> i64;)*
            }
        };
    }

    operations!(
        before_musq_dilate,
        before_musq_erode,
        before_musq_open,
        before_musq_close
    );

    extern "C" {
        pub fn before_musq_put(
            w: usize,
            h: usize,
            frame: *const u8,
            frame_n: usize,
            #[cfg(not(feature = "before_first_kind"))] around: u8,
            image: *mut u8,
            image_n: usize,
        ) -> i64;
        // An older build takes `erode` as a bool and `stages` as a size_t. By the C ABI of
        // x86-64 a byte of 0 or 1, and a number that isn't negative, are passed in the same
        // registers, so that one signature serves both.
        pub fn before_musq_stage(
            word: u32,
            erode: u8,
            #[cfg(not(feature = "before_first_kind"))] around: u8,
            w: usize,
            h: usize,
            from: *const u8,
            from_n: usize,
            to: *mut u8,
            to_n: usize,
        ) -> i64;
        pub fn before_musq_part(
            stages: i64,
            w: usize,
            h: usize,
            first: *const u8,
            first_n: usize,
            second: *const u8,
            second_n: usize,
            image: *mut u8,
        ) -> i64;
        pub fn before_musq_load(w: usize, h: usize, frame: *const u8, frame_n: usize) -> i64;
    }
}

// In all: a slice's pointer is never null, even of an empty slice, and holds for its
// length; the borrow rules keep what is written off the rest.

fn assert_known(around: Around) {
    let known = KNOWS_SECOND || around == Around::Free;
    assert!(known, "this build has the first kind of grid alone");
}

pub fn put(w: usize, h: usize, frame: &[u8], around: Around, image: &mut [u8]) -> i64 {
    assert_known(around);
    let (cells, n) = (frame.as_ptr(), frame.len());
    let (made, made_n) = (image.as_mut_ptr(), image.len());
    // SAFETY: pointers and lengths are those of live slices, see above.
    #[cfg(not(feature = "before_first_kind"))]
    unsafe {
        boundary::before_musq_put(w, h, cells, n, around.cell(), made, made_n)
    }
    // SAFETY: likewise.
    #[cfg(feature = "before_first_kind")]
    unsafe {
        boundary::before_musq_put(w, h, cells, n, made, made_n)
    }
}

pub fn stage(word: u32, mode: Mode, size: (usize, usize), from: &[u8], to: &mut [u8]) -> i64 {
    assert_known(mode.around);
    let ((w, h), erode) = (size, u8::from(mode.erode));
    let (cells, n) = (from.as_ptr(), from.len());
    let (made, made_n) = (to.as_mut_ptr(), to.len());
    // SAFETY: pointers and lengths are those of live slices, see above.
    #[cfg(not(feature = "before_first_kind"))]
    unsafe {
        let around = mode.around.cell();
        boundary::before_musq_stage(word, erode, around, w, h, cells, n, made, made_n)
    }
    // SAFETY: likewise.
    #[cfg(feature = "before_first_kind")]
    unsafe {
        boundary::before_musq_stage(word, erode, w, h, cells, n, made, made_n)
    }
}

pub fn load(w: usize, h: usize, frame: &[u8]) -> i64 {
    // SAFETY: pointer and length are those of a live slice, see above.
    unsafe { boundary::before_musq_load(w, h, frame.as_ptr(), frame.len()) }
}

pub fn operate(
    op: Op,
    plan: &[u32],
    (w, h): (usize, usize),
    frame: &[u8],
    first: &mut [u8],
    second: &mut [u8],
) -> i64 {
    let call: boundary::Operation = match op {
        Op::Dilate => boundary::before_musq_dilate,
        Op::Erode => boundary::before_musq_erode,
        Op::Open => boundary::before_musq_open,
        Op::Close => boundary::before_musq_close,
    };
    // SAFETY: pointers and lengths are those of live slices, see above.
    unsafe {
        call(
            plan.as_ptr(),
            plan.len(),
            w,
            h,
            frame.as_ptr(),
            frame.len(),
            first.as_mut_ptr(),
            first.len(),
            second.as_mut_ptr(),
            second.len(),
        )
    }
}

pub fn part(
    stages: i64,
    (w, h): (usize, usize),
    first: &[u8],
    second: &[u8],
    image: &mut u8,
) -> i64 {
    let (one, one_n) = (first.as_ptr(), first.len());
    let (two, two_n) = (second.as_ptr(), second.len());
    // SAFETY: pointers and lengths are those of live slices, see above; `image` is a live
    // byte.
    unsafe { boundary::before_musq_part(stages, w, h, one, one_n, two, two_n, image) }
}
