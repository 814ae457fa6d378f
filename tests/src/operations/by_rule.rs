//! What a shape gives directly, asked of each covered cell one by one. It is slow for large
//! frames, which have plane.rs.

use super::Op;
use crate::frames::cells::Cells;
use crate::reference::points::Point;

/// The cells of the result: the plane is cut to the frame only at the end.
pub fn cells(op: Op, size: (usize, usize), frame: &[u8], a: &[Point]) -> Vec<u8> {
    let x = Cells::new(frame, size.0, 0, op.around().cell());
    match op {
        Op::Dilate => in_frame(size, |p| x.dilated_at(a, p)),
        Op::Erode => in_frame(size, |p| x.eroded_at(a, p)),
        Op::Open => {
            let eroded = x.eroded(a);
            in_frame(size, |p| eroded.dilated_at(a, p))
        }
        Op::Close => {
            let dilated = x.dilated(a);
            in_frame(size, |p| dilated.eroded_at(a, p))
        }
    }
}

/// What is given at each point of the frame.
pub fn in_frame((w, h): (usize, usize), given: impl Fn(Point) -> u8) -> Vec<u8> {
    let row = |y: usize| (0..w).map(move |x| (x as i64, y as i64));
    (0..h).flat_map(row).map(given).collect()
}
