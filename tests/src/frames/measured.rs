//! Frames in which every cell is measured, as sets of points: the points of their occupied
//! cells, with ⊕ and ⊖ as document 01 defines them.

use super::Around;
use crate::reference::points::Point;
use std::collections::HashSet;

pub type Points = HashSet<Point>;

/// The point of a place, in rows of so many cells.
fn point_at(place: usize, width: usize) -> Point {
    ((place % width) as i64, (place / width) as i64)
}

/// The points whose cells are occupied, in rows of so many cells.
pub fn occupied(cells: &[u8], width: usize) -> Points {
    let places = (0..cells.len()).filter(|&place| cells[place] == 1);
    places.map(|place| point_at(place, width)).collect()
}

/// X ⊕ A: all sums of a point of X and a point of A.
pub fn plus(x: &Points, a: &[Point]) -> Points {
    let mut sums = Points::new();
    for p in x {
        for q in a {
            sums.insert((p.0 + q.0, p.1 + q.1));
        }
    }
    sums
}

/// X ⊖ A: the points p for which p + q lies in X for every q of A, which isn't empty.
/// Each such p is a point of X less the first of A.
pub fn minus(x: &Points, a: &[Point]) -> Points {
    let mut rest = Points::new();
    for one in x {
        let p = (one.0 - a[0].0, one.1 - a[0].1);
        if a.iter().all(|q| x.contains(&(p.0 + q.0, p.1 + q.1))) {
            rest.insert(p);
        }
    }
    rest
}

/// Writes every cell: 1 if its point is in the set, 0 if not. Other points are cut off.
pub fn lay(points: &Points, width: usize, cells: &mut [u8]) {
    for (place, cell) in cells.iter_mut().enumerate() {
        *cell = u8::from(points.contains(&point_at(place, width)));
    }
}

/// The frame's occupied points, joined to all points outside it where those are occupied,
/// as far off as is asked. All others on the plane would be in the set too.
pub fn of_frame((w, h): (usize, usize), frame: &[u8], around: Around, far: i64) -> Points {
    let mut points = occupied(frame, w);
    if around == Around::Occupied {
        let (columns, rows) = (0..w as i64, 0..h as i64);
        for y in -far..rows.end + far {
            for x in -far..columns.end + far {
                if !columns.contains(&x) || !rows.contains(&y) {
                    points.insert((x, y));
                }
            }
        }
    }
    points
}
