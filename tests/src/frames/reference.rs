//! The independent implementation of the three calls, from the words of documents 01 and
//! 02: frames and grids are cells of the whole plane.

use super::cells::Cells;
use super::grounds::holding;
use super::{grid_of, Call, Case};
use crate::reference::points::of_mask;

/// The whole call: what it answers, and what it writes to the image.
pub fn run(case: &Case, image: &mut [u8]) -> i64 {
    if let Some(ground) = holding(case).first() {
        return -ground;
    }
    let (grid, size) = (grid_of(case.w, case.h), (case.w + 15, case.h + 15));
    match case.call {
        Call::Load => case.read.iter().filter(|&&cell| cell == 1).count() as i64,
        Call::Put { around } => {
            let frame = Cells::new(&case.read, case.w, 0, around.cell());
            image[..grid].copy_from_slice(&frame.cut(around.start(), size));
            0
        }
        Call::Stage { word, mode } => {
            let (start, outside) = (mode.around.start(), mode.around.cell());
            let x = Cells::new(&case.read[..grid], case.w + 15, start, outside);
            let a = of_mask(word & 0x1ff);
            let made = match mode.erode {
                true => x.eroded(&a),
                false => x.dilated(&a),
            };
            image[..grid].copy_from_slice(&made.cut(start, size));
            0
        }
    }
}
