//! Cells about a frame, with the values that they cover. These are gathered by the points
//! of the shape, one after the other, so that frames of 240 by 240 are quick enough.

use crate::reference::points::Point;

/// Columns and rows on each side of the frame. A frame's cells lie inside it, two
/// operations by points from -15 to 15 change cells at most 30 off it, and 15 are left: no
/// cell that is read or written past its row is unlike those outside.
const MARGIN: i64 = 48;

/// The cell (x, y) is the one with number (y + 48) * stride + x + 48; all others are as
/// those outside.
#[derive(Clone, PartialEq, Eq, Debug)]
pub struct Plane {
    stride: i64,
    cells: Vec<u8>,
    outside: u8,
}

/// The values of some cells: value v is bit v.
type Values = u8;

impl Plane {
    /// The cells of a frame of W columns and H rows, and one value outside it.
    pub fn of_frame((w, h): (usize, usize), frame: &[u8], outside: u8) -> Plane {
        let (stride, rows) = (w as i64 + 2 * MARGIN, h as i64 + 2 * MARGIN);
        let mut cells = vec![outside; (stride * rows) as usize];
        for (y, row) in frame.chunks(w).enumerate() {
            let start = ((y as i64 + MARGIN) * stride + MARGIN) as usize;
            cells[start..start + w].copy_from_slice(row);
        }
        Plane {
            stride,
            cells,
            outside,
        }
    }

    pub fn at(&self, (x, y): Point) -> u8 {
        self.cells[((y + MARGIN) * self.stride + x + MARGIN) as usize]
    }

    /// All points that have a cell here, about a frame of this size.
    pub fn points((w, h): (usize, usize)) -> Vec<Point> {
        let row = |y: i64| (-MARGIN..w as i64 + MARGIN).map(move |x| (x, y));
        (-MARGIN..h as i64 + MARGIN).flat_map(row).collect()
    }

    /// The cells of the frame.
    pub fn cells(&self, (w, h): (usize, usize)) -> Vec<u8> {
        let row = |y: usize| (0..w).map(move |x| (x as i64, y as i64));
        let points = (0..h).flat_map(row);
        points.map(|point| self.at(point)).collect()
    }

    /// For each cell, the values of the cells at p + q for all q.
    fn covered(&self, points: impl Iterator<Item = Point>) -> Vec<Values> {
        let values: Vec<Values> = self.cells.iter().map(|cell| 1 << cell).collect();
        let mut all = vec![0; values.len()];
        for (dx, dy) in points {
            let by = dy * self.stride + dx;
            let n = values.len() - by.unsigned_abs() as usize;
            let (at, from) = ((-by).max(0) as usize, by.max(0) as usize);
            let seen = all[at..at + n].iter_mut().zip(&values[from..from + n]);
            seen.for_each(|(seen, value)| *seen |= value);
            // Before the first cell and past the last all are as those outside.
            let ends = (0..at).chain(at + n..values.len());
            ends.for_each(|i| all[i] |= 1 << self.outside);
        }
        all
    }

    /// Each cell by the values that it covers.
    fn by(&self, rule: impl Fn(Values) -> u8, covered: Vec<Values>) -> Plane {
        let cells = covered.into_iter().map(rule).collect();
        Plane { cells, ..*self }
    }

    /// 1 if some cell at p - q is 1, else 2 if some is 2, else 0.
    pub fn dilated(&self, a: &[Point]) -> Plane {
        let rule = |values: Values| match (values >> 1 & 1, values >> 2 & 1) {
            (1, _) => 1,
            (_, 1) => 2,
            _ => 0,
        };
        self.by(rule, self.covered(a.iter().map(|q| (-q.0, -q.1))))
    }

    /// 0 if some cell at p + q is 0, else 2 if some is 2, else 1.
    pub fn eroded(&self, a: &[Point]) -> Plane {
        let rule = |values: Values| match (values & 1, values >> 2 & 1) {
            (1, _) => 0,
            (_, 1) => 2,
            _ => 1,
        };
        self.by(rule, self.covered(a.iter().copied()))
    }
}
