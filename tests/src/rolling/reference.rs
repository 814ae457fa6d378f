//! The independent implementation of an arrival, from the words of document 02: the kept
//! frame by what the plan's points give directly, without its stages.

use super::grounds::holding;
use super::Case;
use crate::operations::plane::Plane;
use crate::reference::points::{of_plan, Point};

/// Both frames after an arrival, and what is said of them.
pub struct Frames {
    pub live: Vec<u8>,
    pub kept: Vec<u8>,
    /// The dilation of the whole live frame.
    pub dilated: Vec<u8>,
    /// Rows of the kept frame that were only moved.
    pub moved: usize,
}

/// The greatest |y| of a plan's points.
pub fn reach(points: &[Point]) -> usize {
    let far = points.iter().map(|(_, y)| y.unsigned_abs() as usize);
    far.max().expect("a plan has a point")
}

/// Dilation by the points, cut to the frame; cells outside it are free.
pub fn dilation(size: (usize, usize), frame: &[u8], points: &[Point]) -> Vec<u8> {
    Plane::of_frame(size, frame, 0).dilated(points).cells(size)
}

/// The row lies farther from row 0 and from the last row than that.
fn is_only_moved(row: usize, h: usize, reach: usize) -> bool {
    row > reach && h - 1 - row > reach
}

/// What a case comes to: both frames, or the first ground that holds.
pub fn run(case: &Case) -> Result<Frames, usize> {
    if let Some(&ground) = holding(case).first() {
        return Err(ground);
    }
    let (size, points) = ((case.w, case.h), of_plan(&case.plan));
    let live = [&case.live[case.w..], &case.row[..]].concat();
    let dilated = dilation(size, &live, &points);
    let (mut kept, mut moved) = (dilated.clone(), 0);
    for row in (0..case.h).filter(|&row| is_only_moved(row, case.h, reach(&points))) {
        let here = row * case.w;
        let (to, from) = (here..here + case.w, here + case.w..here + 2 * case.w);
        kept[to].copy_from_slice(&case.kept[from]);
        moved += 1;
    }
    Ok(Frames {
        live,
        kept,
        dilated,
        moved,
    })
}
