//! Makers of random shapes of full extents, w = h = 15, all at the window's corner: cells
//! at random, sums of random stages, simple figures, and these with some cells changed.

use super::Maker;
use crate::reference::points::{bounds, Point};

/// A way to make the points of such a shape.
pub type Kind = fn(&mut Maker) -> Vec<Point>;

/// The window's cells.
fn window() -> impl Iterator<Item = Point> {
    (0..16).flat_map(|y| (0..16).map(move |x| (x, y)))
}

/// A disk: twice its middle's x and y, and the square of twice its radius.
type Disk = (i64, i64, i64);

fn is_in((x, y): Point, disk: Disk) -> bool {
    (2 * x - disk.0).pow(2) + (2 * y - disk.1).pow(2) <= disk.2
}

impl Maker {
    /// Made anew until the extents are full.
    fn full(&mut self, make: impl Fn(&mut Maker) -> Vec<Point>) -> Vec<Point> {
        let is_full = |points: &[Point]| bounds(points) == ((0, 0), (15, 15));
        loop {
            let points = make(self);
            if !points.is_empty() && is_full(&points) {
                return points;
            }
        }
    }

    /// Each cell is there once in so many times or, as often, missing.
    pub fn full_cells(&mut self) -> Vec<Point> {
        self.full(|maker| {
            let bound = maker.random.pick(&[2, 3, 4, 8, 16, 32, 64]);
            let missing = maker.random.once_in(2);
            let there = |_: &Point| maker.random.once_in(bound) != missing;
            window().filter(there).collect()
        })
    }

    pub fn full_sum(&mut self) -> Vec<Point> {
        self.sum_of_stages((15, 15))
    }

    pub fn full_sum_flipped(&mut self) -> Vec<Point> {
        let sum = self.full_sum();
        self.flipped(&sum)
    }

    /// A sum without one of its cells.
    pub fn full_sum_without_a_cell(&mut self) -> Vec<Point> {
        let sum = self.full_sum();
        self.full(|maker| {
            let mut points = sum.clone();
            points.remove(maker.random.below(sum.len()));
            points
        })
    }

    /// One to three cells of the window put in or taken out.
    fn flipped(&mut self, points: &[Point]) -> Vec<Point> {
        self.full(|maker| {
            let mut points = points.to_vec();
            for _ in 0..maker.random.between(1, 3) {
                let cell = (maker.random.between(0, 15), maker.random.between(0, 15));
                match points.iter().position(|&point| point == cell) {
                    None => points.push(cell),
                    Some(place) => _ = points.remove(place),
                }
            }
            points
        })
    }

    /// The window without one to four of its cells.
    pub fn full_with_holes(&mut self) -> Vec<Point> {
        self.full(|maker| {
            let mut points: Vec<Point> = window().collect();
            for _ in 0..maker.random.between(1, 4) {
                points.remove(maker.random.below(points.len()));
            }
            points
        })
    }

    /// A disk about the window's middle, with some cells flipped.
    pub fn full_disk_flipped(&mut self) -> Vec<Point> {
        let disk = (15, 15, self.random.between(226, 449));
        let points: Vec<Point> = window().filter(|&point| is_in(point, disk)).collect();
        self.flipped(&points)
    }

    /// Two to six disks joined, with some cells flipped.
    pub fn full_blob_flipped(&mut self) -> Vec<Point> {
        let points = self.full(|maker| {
            let mut number = |least, most| maker.random.between(least, most);
            let n = number(2, 6);
            let disk = |_| (number(0, 30), number(0, 30), number(16, 300));
            let disks: Vec<Disk> = (0..n).map(disk).collect();
            let covered = |&point: &Point| disks.iter().any(|&disk| is_in(point, disk));
            window().filter(covered).collect()
        });
        self.flipped(&points)
    }

    /// The window without its corners, each cut along a line of its own.
    pub fn full_octagon(&mut self) -> Vec<Point> {
        self.full(|maker| {
            let mut slope = || maker.random.between(1, 2);
            let slopes: [Point; 4] = std::array::from_fn(|_| (slope(), slope()));
            let cuts: [i64; 4] = std::array::from_fn(|_| maker.random.between(0, 12));
            let kept = |&(x, y): &Point| {
                let corners = [(x, y), (15 - x, y), (x, 15 - y), (15 - x, 15 - y)];
                let beyond = |i: usize| corners[i].0 * slopes[i].0 + corners[i].1 * slopes[i].1;
                (0..4).all(|i| beyond(i) >= cuts[i])
            };
            window().filter(kept).collect()
        })
    }

    pub fn full_octagon_flipped(&mut self) -> Vec<Point> {
        let octagon = self.full_octagon();
        self.flipped(&octagon)
    }
}
