//! The library's call on an arriving row, and a safe wrapper on slices.

mod boundary {
    extern "C" {
        pub fn musq_arrive(
            plan: *const u32,
            n: usize,
            w: usize,
            h: usize,
            row: *const u8,
            row_n: usize,
            live: *mut u8,
            live_n: usize,
            kept: *mut u8,
            kept_n: usize,
        ) -> i64;
    }
}

/// A row arrives; both frames are lent for writing.
pub fn arrive(
    plan: &[u32],
    (w, h): (usize, usize),
    row: &[u8],
    live: &mut [u8],
    kept: &mut [u8],
) -> i64 {
    // SAFETY: a slice's pointer is never null, even of an empty slice, and holds for
    // its length; the borrow rules keep both frames off the rest and off each other.
    unsafe {
        boundary::musq_arrive(
            plan.as_ptr(),
            plan.len(),
            w,
            h,
            row.as_ptr(),
            row.len(),
            live.as_mut_ptr(),
            live.len(),
            kept.as_mut_ptr(),
            kept.len(),
        )
    }
}
