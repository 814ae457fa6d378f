//! Cells of the whole plane with their three values, and what dilation and erosion give of
//! them: the words of request W5 of document 02, asked of the covered cells one by one.

use crate::reference::points::Point;

/// The cells of a box of columns and rows, and one value for every cell outside it.
#[derive(Clone, Debug)]
pub struct Cells {
    start: Point,
    width: i64,
    height: i64,
    inside: Vec<u8>,
    outside: u8,
}

impl Cells {
    /// Rows of so many cells, the first cell at this x and y.
    pub fn new(inside: &[u8], width: usize, start: i64, outside: u8) -> Cells {
        Cells {
            start: (start, start),
            width: width as i64,
            height: (inside.len() / width) as i64,
            inside: inside.to_vec(),
            outside,
        }
    }

    pub fn at(&self, (x, y): Point) -> u8 {
        let (column, row) = (x - self.start.0, y - self.start.1);
        if (0..self.width).contains(&column) && (0..self.height).contains(&row) {
            self.inside[(row * self.width + column) as usize]
        } else {
            self.outside
        }
    }

    /// 1 if some covered cell is 1, else 2 if some is 2, else 0; covered are p - q.
    pub fn dilated_at(&self, a: &[Point], p: Point) -> u8 {
        let some = |value: u8| {
            let mut covered = a.iter().map(|q| self.at((p.0 - q.0, p.1 - q.1)));
            covered.any(|cell| cell == value)
        };
        match (some(1), some(2)) {
            (true, _) => 1,
            (false, true) => 2,
            (false, false) => 0,
        }
    }

    /// 0 if some covered cell is 0, else 2 if some is 2, else 1; covered are p + q.
    pub fn eroded_at(&self, a: &[Point], p: Point) -> u8 {
        let some = |value: u8| {
            let mut covered = a.iter().map(|q| self.at((p.0 + q.0, p.1 + q.1)));
            covered.any(|cell| cell == value)
        };
        match (some(0), some(2)) {
            (true, _) => 0,
            (false, true) => 2,
            (false, false) => 1,
        }
    }

    /// Dilation by the points of A, of which there is one at least.
    pub fn dilated(&self, a: &[Point]) -> Cells {
        self.at_each_point(a, Cells::dilated_at)
    }

    /// Erosion by the points of A, of which there is one at least.
    pub fn eroded(&self, a: &[Point]) -> Cells {
        self.at_each_point(a, Cells::eroded_at)
    }

    /// What the rule gives everywhere. The box grows by as far as a point of A is off; past
    /// it only cells outside are covered, all of one value, and both rules give that value.
    fn at_each_point(&self, a: &[Point], rule: fn(&Cells, &[Point], Point) -> u8) -> Cells {
        let off = a.iter().map(|q| q.0.abs().max(q.1.abs()));
        let far = off.max().expect("a shape has a point");
        let start = (self.start.0 - far, self.start.1 - far);
        let (width, height) = (self.width + 2 * far, self.height + 2 * far);
        let mut inside = Vec::with_capacity((width * height) as usize);
        for y in start.1..start.1 + height {
            for x in start.0..start.0 + width {
                inside.push(rule(self, a, (x, y)));
            }
        }
        Cells {
            start,
            width,
            height,
            inside,
            outside: self.outside,
        }
    }

    /// The cells of so many columns and rows from this x and y on; others are cut off.
    pub fn cut(&self, start: i64, (w, h): (usize, usize)) -> Vec<u8> {
        let row = |y: i64| (start..start + w as i64).map(move |x| (x, y));
        let points = (start..start + h as i64).flat_map(row);
        points.map(|point| self.at(point)).collect()
    }
}
