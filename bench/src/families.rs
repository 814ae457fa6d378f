//! Families of shapes to plan, each made from a fixed seed. All stand somewhere in
//! the window, with any anchor.

use crate::rows::{is_marked, least_position};
use musqerpi_tests::lists::Maker;
use musqerpi_tests::reference::points::{summed, Point};

/// Shapes in a family; of disks there are fewer, all that there are.
const SHAPES: usize = 300;

pub struct Family {
    pub name: String,
    pub shapes: Vec<Vec<u32>>,
}

/// All families, in the order of the table.
pub fn all() -> Vec<Family> {
    let mut families = Vec::new();
    for extent in (3..=15).step_by(2) {
        let make = |maker: &mut Maker| maker.sum_of_stages((extent, extent));
        let name = format!("sums, w = h = {extent}");
        families.push(family(&name, 400 + extent as u64, make));
    }
    for extent in (3..=15).step_by(2) {
        let make = |maker: &mut Maker| maker.sum_with_a_cell_flipped((extent, extent));
        let name = format!("flipped, w = h = {extent}");
        families.push(family(&name, 420 + extent as u64, make));
    }
    families.push(disks());
    families.push(family("ellipses", 441, ellipse));
    families.push(family("with holes", 442, rectangle_with_holes));
    families.push(family("octagons, half flipped", 446, octagon_half_flipped));
    families.push(family(
        "irreducible and stages",
        447,
        irreducible_and_stages,
    ));
    families.push(family("combs", 443, comb));
    families.push(family("sparse", 444, |maker| scattered(maker, 8, false)));
    families.push(family("dense", 445, |maker| scattered(maker, 32, true)));
    families
}

fn family(name: &str, seed: u64, make: impl Fn(&mut Maker) -> Vec<Point>) -> Family {
    let mut maker = Maker::new(seed);
    let shapes = (0..SHAPES).map(|_| {
        let points = make(&mut maker);
        maker.placed(&points)
    });
    Family {
        name: name.to_string(),
        shapes: shapes.collect(),
    }
}

/// The points with x from 0 to w and y from 0 to h that the rule takes.
fn points((w, h): Point, rule: impl Fn(Point) -> bool) -> Vec<Point> {
    let row = |y: i64| (0..=w).map(move |x| (x, y));
    let all = (0..=h).flat_map(row);
    all.filter(|&point| rule(point)).collect()
}

/// An ellipse in the window. All lengths are doubled, so that centres may stand on
/// half cells; the axes are given by their squares.
fn ellipse_of(centre: Point, axes: Point) -> Vec<Point> {
    points((15, 15), |(x, y)| {
        let (dx, dy) = (2 * x - centre.0, 2 * y - centre.1);
        dx * dx * axes.1 + dy * dy * axes.0 <= axes.0 * axes.1
    })
}

/// All disks of the window with the centre on a cell, an edge or a corner, each once.
fn disks() -> Family {
    let mut disks: Vec<Vec<Point>> = Vec::new();
    for centre in [(14, 14), (15, 14), (14, 15), (15, 15)] {
        let greatest = if centre == (15, 15) { 225 } else { 196 };
        for radius in 1..=greatest {
            let disk = ellipse_of(centre, (radius, radius));
            if !disk.is_empty() && !disks.contains(&disk) {
                disks.push(disk);
            }
        }
    }
    let mut maker = Maker::new(440);
    Family {
        name: "disks".to_string(),
        shapes: disks.iter().map(|disk| maker.placed(disk)).collect(),
    }
}

/// Half axes of 2 to 7 cells, the centre on a cell, an edge or a corner.
fn ellipse(maker: &mut Maker) -> Vec<Point> {
    let centre = (maker.random.between(14, 15), maker.random.between(14, 15));
    let axes = (maker.random.between(16, 196), maker.random.between(16, 196));
    ellipse_of(centre, axes)
}

/// A full rectangle without one to three of its inner cells.
fn rectangle_with_holes(maker: &mut Maker) -> Vec<Point> {
    let (w, h) = (maker.random.between(3, 15), maker.random.between(3, 15));
    let mut left = points((w, h), |_| true);
    for _ in 0..=maker.random.below(3) {
        let hole = (
            maker.random.between(1, w - 1),
            maker.random.between(1, h - 1),
        );
        left.retain(|&point| point != hole);
    }
    left
}

/// A box without its corners, each cut along a line of its own; in half of them a cell of
/// the box is put in or taken out.
fn octagon_half_flipped(maker: &mut Maker) -> Vec<Point> {
    let (w, h) = (maker.random.between(7, 15), maker.random.between(7, 15));
    let mut cut = |most| {
        (
            maker.random.between(1, 2),
            maker.random.between(1, 2),
            maker.random.between(0, most),
        )
    };
    let cuts: [(i64, i64, i64); 4] = std::array::from_fn(|_| cut(w.min(h)));
    let cell = (maker.random.between(0, w), maker.random.between(0, h));
    let flipped = maker.random.once_in(2);
    points((w, h), |(x, y)| {
        let corners = [(x, y), (w - x, y), (x, h - y), (w - x, h - y)];
        let pairs = corners.iter().zip(&cuts);
        let mut beyond = pairs.map(|((x, y), (a, b, least))| a * x + b * y >= *least);
        beyond.all(|kept| kept) != (flipped && (x, y) == cell)
    })
}

/// Cells of a box of 5 by 5 that no stage is a summand of, with random stages.
fn irreducible_and_stages(maker: &mut Maker) -> Vec<Point> {
    let (w, h) = (maker.random.between(0, 11), maker.random.between(0, 11));
    let stages = maker.sum_of_stages((w, h));
    loop {
        let mut cells = points((4, 4), |_| true);
        cells.retain(|_| maker.random.once_in(2));
        if !cells.is_empty() && is_irreducible(&cells) {
            return summed(&cells, &stages);
        }
    }
}

fn is_irreducible(cells: &[Point]) -> bool {
    let mut rows = [0; 16];
    for &(x, y) in cells {
        rows[y as usize] |= 1 << x;
    }
    let shape = least_position(&rows);
    !(0..512).any(|mask| is_marked(&shape, mask))
}

/// A back of one or two rows and teeth at every second, third or fourth column, some
/// of them a cell longer.
fn comb(maker: &mut Maker) -> Vec<Point> {
    let (teeth, length) = (maker.random.between(2, 4), maker.random.between(2, 13));
    let (period, back) = (maker.random.between(2, 4), maker.random.between(0, 1));
    let uneven = maker.random.once_in(2);
    let w = (teeth * period).min(15) / period * period;
    points((w, length + 1), |(x, y)| {
        let longer = i64::from(uneven && x / period % 2 == 1);
        y <= back || (x % period == 0 && y <= length + longer)
    })
}

/// Cells of a box, each there once in so many times, or as often missing.
fn scattered(maker: &mut Maker, once_in: usize, missing: bool) -> Vec<Point> {
    let (w, h) = (maker.random.between(3, 15), maker.random.between(3, 15));
    let mut cells = points((w, h), |_| true);
    cells.retain(|_| maker.random.once_in(once_in) != missing);
    if cells.is_empty() {
        cells.push((0, 0));
    }
    cells
}
