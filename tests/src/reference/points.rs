//! Sets of points: a point is a pair (x, y) of integers, a set holds each once.

pub type Point = (i64, i64);

fn add(p: Point, q: Point) -> Point {
    (p.0 + q.0, p.1 + q.1)
}

/// The points (x - ax, y - ay) of a shape list's cells.
pub fn of_shape(list: &[u32]) -> Vec<Point> {
    let (ax, ay) = (i64::from(list[0] & 0xf), i64::from(list[0] >> 4 & 0xf));
    let mut points = Vec::new();
    for row in &list[1..] {
        let y = i64::from(row >> 16 & 0xf);
        for x in 0..16 {
            if row >> x & 1 == 1 {
                points.push((x - ax, y - ay));
            }
        }
    }
    points
}

/// The cells (i, j) of a mask: bit 3j + i.
pub fn of_mask(mask: u32) -> Vec<Point> {
    let bits = (0..9).filter(|bit| mask >> bit & 1 == 1);
    bits.map(|bit| (bit % 3, bit / 3)).collect()
}

/// A plan's points: its offset added to the sum of its stages, one point if there are none.
pub fn of_plan(list: &[u32]) -> Vec<Point> {
    let offset = (
        i64::from(list[1] & 0xff) - 15,
        i64::from(list[1] >> 8 & 0xff) - 15,
    );
    let mut points = vec![offset];
    for stage in &list[2..] {
        points = summed(&points, &of_mask(stage & 0x1ff));
    }
    points
}

pub fn moved(points: &[Point], by: Point) -> Vec<Point> {
    points.iter().map(|&point| add(point, by)).collect()
}

/// The union of two sets.
pub fn joined(a: &[Point], b: &[Point]) -> Vec<Point> {
    let mut both = [a, b].concat();
    both.sort();
    both.dedup();
    both
}

/// All sums of a point of `a` and a point of `b`, each kept once by a mark in their box.
pub fn summed(a: &[Point], b: &[Point]) -> Vec<Point> {
    if a.is_empty() || b.is_empty() {
        return Vec::new();
    }
    let (from, to) = (bounds(a), bounds(b));
    let (least, greatest) = (add(from.0, to.0), add(from.1, to.1));
    let width = (greatest.0 - least.0 + 1) as usize;
    let height = (greatest.1 - least.1 + 1) as usize;
    let mut marks = vec![false; width * height];
    let at =
        |(x, y): Point, corner: Point| (y - corner.1) as usize * width + (x - corner.0) as usize;
    for &q in b {
        let marks = &mut marks[at(q, to.0)..];
        for &p in a {
            marks[at(p, from.0)] = true;
        }
    }
    marked(&marks, width, least)
}

/// The points whose marks are set, row by row from the corner `least`.
fn marked(marks: &[bool], width: usize, least: Point) -> Vec<Point> {
    let mut points = Vec::with_capacity(marks.len());
    for (y, row) in marks.chunks(width).enumerate() {
        for (x, &mark) in row.iter().enumerate() {
            if mark {
                points.push((least.0 + x as i64, least.1 + y as i64));
            }
        }
    }
    points
}

/// Least and greatest x and y of a set that isn't empty.
pub fn bounds(points: &[Point]) -> (Point, Point) {
    let (mut least, mut greatest) = (points[0], points[0]);
    for &(x, y) in points {
        least = (least.0.min(x), least.1.min(y));
        greatest = (greatest.0.max(x), greatest.1.max(y));
    }
    (least, greatest)
}

/// The six sides of ground 8, each by how much it goes beyond its limit:
/// w, h, least x, least y, greatest x, greatest y.
pub fn excess(points: &[Point]) -> [i64; 6] {
    let (least, greatest) = bounds(points);
    [
        greatest.0 - least.0 - 15,
        greatest.1 - least.1 - 15,
        -15 - least.0,
        -15 - least.1,
        greatest.0 - 15,
        greatest.1 - 15,
    ]
}

/// The shape list of points in range, with the least anchor.
pub fn to_list(points: &[Point]) -> Vec<u32> {
    let (least, _) = bounds(points);
    let anchor = ((-least.0).max(0), (-least.1).max(0));
    let mut columns = [0u32; 16];
    for &point in points {
        let (x, y) = add(point, anchor);
        columns[y as usize] |= 1 << x;
    }
    let mut list = vec![0x1000_0000 | (anchor.1 as u32) << 4 | anchor.0 as u32];
    for (y, &row) in columns.iter().enumerate() {
        if row != 0 {
            list.push(0x2000_0000 | (y as u32) << 16 | row);
        }
    }
    list
}
