//! Makers of random shapes for planning: cells at random, sums of random stages,
//! which have a plan, and such sums with one cell flipped, most of which have none.

use super::{list_of_rows, Maker};
use crate::reference::points::{bounds, of_mask, summed, Point};

/// A way to make the points of a shape with given w and h; the least x and y are 0.
pub type Kind = fn(&mut Maker, Point) -> Vec<Point>;

pub const KINDS: [Kind; 3] = [
    Maker::cells,
    Maker::sum_of_stages,
    Maker::sum_with_a_cell_flipped,
];

impl Maker {
    /// A shape list with w and h up to `limit`, somewhere in the window, with any anchor.
    pub fn small_shape(&mut self, kind: Kind, limit: i64) -> Vec<u32> {
        let extents = (self.random.between(0, limit), self.random.between(0, limit));
        let points = kind(self, extents);
        self.placed(&points)
    }

    /// The points as a shape list, moved to a random place in the window, with any anchor.
    pub fn placed(&mut self, points: &[Point]) -> Vec<u32> {
        let (least, greatest) = bounds(points);
        let x = self.random.between(-least.0, 15 - greatest.0);
        let y = self.random.between(-least.1, 15 - greatest.1);
        let anchor = (self.random.below(16) as u32, self.random.below(16) as u32);
        let mut rows = [0; 16];
        for point in points {
            rows[(point.1 + y) as usize] |= 1 << (point.0 + x);
        }
        list_of_rows(anchor, &rows)
    }

    /// Cells at random, each there once in two, four or eight times or, as often,
    /// missing; one cell at least. w and h may come out smaller.
    pub fn cells(&mut self, extents: Point) -> Vec<Point> {
        let (bound, missing) = (self.random.pick(&[2, 4, 8]), self.random.once_in(2));
        let mut points = all_cells(extents);
        points.retain(|_| self.random.once_in(bound) != missing);
        if points.is_empty() {
            points.push((0, 0));
        }
        points
    }

    /// The sum of random stages, half the time all of two cells.
    pub fn sum_of_stages(&mut self, extents: Point) -> Vec<Point> {
        let thin = self.random.once_in(2);
        let (mut points, mut missing) = (vec![(0, 0)], extents);
        while missing != (0, 0) {
            let from = if thin { &self.thin } else { &self.stages };
            let fitting =
                |stage: &&(u32, Point)| stage.1 .0 <= missing.0 && stage.1 .1 <= missing.1;
            let stages: Vec<(u32, Point)> = from.iter().filter(fitting).copied().collect();
            let (mask, (w, h)) = self.random.pick(&stages);
            points = summed(&points, &of_mask(mask));
            missing = (missing.0 - w, missing.1 - h);
        }
        points
    }

    /// Such a sum with one cell of its box put in or taken out, never the only one.
    pub fn sum_with_a_cell_flipped(&mut self, extents: Point) -> Vec<Point> {
        let mut points = self.sum_of_stages(extents);
        let cell = self.random.pick(&all_cells(extents));
        match points.iter().position(|&point| point == cell) {
            None => points.push(cell),
            Some(place) if points.len() > 1 => _ = points.remove(place),
            Some(_) => {}
        }
        points
    }
}

/// Every point with x from 0 to w and y from 0 to h.
fn all_cells((w, h): Point) -> Vec<Point> {
    let row = |y: i64| (0..=w).map(move |x| (x, y));
    (0..=h).flat_map(row).collect()
}
