//! (e) Planning against exhaustive search: every shape in a window of 4 columns and 4
//! rows, random shapes, and the shapes whose plans documents 01 and 003 tell.

use musqerpi_tests::cases::{Call, Case};
use musqerpi_tests::check::Checker;
use musqerpi_tests::expect::{gives, refused};
use musqerpi_tests::lists::planning::Kind;
use musqerpi_tests::lists::{list_of_rows, Maker};
use musqerpi_tests::reference::grounds::is_stage;
use musqerpi_tests::reference::plans::shortest;
use musqerpi_tests::reference::points::{bounds, moved, of_mask, summed, Point};
use musqerpi_tests::tally::Tally;
use std::collections::HashMap;

/// Every shape in the window 4 by 4, as points.
fn shapes_of_four_by_four() -> impl Iterator<Item = Vec<Point>> {
    let cells = |shape: u32| (0..16i64).filter(move |bit| shape >> bit & 1 == 1);
    (1..=0xffff).map(move |shape| cells(shape).map(|bit| (bit % 4, bit / 4)).collect())
}

#[test]
fn every_shape_of_four_by_four_at_the_corner() {
    let (mut checker, mut tally) = (Checker::new(301), Tally::new(Call::Plan));
    for points in shapes_of_four_by_four() {
        let list = list_at_corner(&points);
        tally.note(&checker.check(&Case::of_planning(&list, 32)));
    }
    tally.assert_answers(&[0, 10], 1000);
}

#[test]
fn every_shape_of_four_by_four_anywhere() {
    println!("seed 302");
    let (mut maker, mut checker) = (Maker::new(302), Checker::new(!302));
    let mut tally = Tally::new(Call::Plan);
    for points in shapes_of_four_by_four() {
        let out_n = 32 + maker.random.below(16);
        let case = Case::of_planning(&maker.placed(&points), out_n);
        tally.note(&checker.check(&case));
    }
    tally.assert_answers(&[0, 10], 1000);
}

/// The exhaustive search itself, against a list of all sums that is made the other way
/// round: from every list of stages to its points.
#[test]
fn the_search_against_all_sums() {
    let mut sums = HashMap::from([(vec![(0, 0)], vec![])]);
    let mut lists = vec![(vec![(0, 0)], vec![])];
    // Lists of n stages, in order: those of n - 1 in order, each with every stage after.
    while !lists.is_empty() {
        lists = lists.iter().flat_map(longer_by_one).collect();
        for (points, masks) in &lists {
            sums.entry(points.clone()).or_insert(masks.clone());
        }
    }
    let mut chains = 0;
    for points in shapes_of_four_by_four() {
        let (least, _) = bounds(&points);
        let masks = sums.get(&moved(&points, (-least.0, -least.1)));
        assert_eq!(shortest(&points).as_ref(), masks, "{points:?}");
        chains += u32::from(masks.is_some());
    }
    println!("{chains} shapes with a chain, {} sums", sums.len());
}

/// The lists with one stage more, masks not falling, whose w and h are at most 3.
fn longer_by_one((points, masks): &(Vec<Point>, Vec<u32>)) -> Vec<(Vec<Point>, Vec<u32>)> {
    let from = masks.last().copied().unwrap_or(0);
    let with = |mask: u32| {
        let sum = summed(points, &of_mask(mask)); // row by row, as the shapes are
        (sum, [&masks[..], &[mask]].concat())
    };
    let fits = |(points, _): &(Vec<Point>, Vec<u32>)| {
        let (_, (w, h)) = bounds(points);
        w <= 3 && h <= 3
    };
    let stages = (from..512).filter(|&mask| is_stage(mask));
    stages.map(with).filter(fits).collect()
}

/// So many random shapes of a kind, with w and h up to a limit.
fn random(kind: Kind, shapes: u32, limit: i64, seed: u64) -> Tally {
    println!("seed {seed}");
    let (mut maker, mut checker) = (Maker::new(seed), Checker::new(!seed));
    let mut tally = Tally::new(Call::Plan);
    for _ in 0..shapes {
        let out_n = 32 + maker.random.below(16);
        let case = Case::of_planning(&maker.small_shape(kind, limit), out_n);
        tally.note(&checker.check(&case));
    }
    tally
}

#[test]
fn cells_at_random() {
    random(Maker::cells, 10_000, 3, 303).assert_answers(&[0, 10], 1000);
    random(Maker::cells, 5_000, 7, 304).assert_answers(&[0, 10], 100);
}

#[test]
fn sums_of_random_stages() {
    random(Maker::sum_of_stages, 17_500, 7, 305).assert_answers(&[0], 17_500);
}

#[test]
fn sums_with_a_cell_flipped() {
    let kind = Maker::sum_with_a_cell_flipped;
    random(kind, 17_500, 6, 306).assert_answers(&[0, 10], 1000);
}

/// Fewer shapes where the searches are longer.
#[test]
fn larger_shapes() {
    random(Maker::cells, 500, 15, 307).assert_answers(&[0, 10], 10);
    random(Maker::sum_of_stages, 1000, 15, 308).assert_answers(&[0], 1000);
    let kind = Maker::sum_with_a_cell_flipped;
    random(kind, 500, 9, 309).assert_answers(&[0, 10], 100);
}

/// The points as a shape list, moved to the window's corner, anchor (0, 0).
fn list_at_corner(points: &[Point]) -> Vec<u32> {
    let (least, _) = bounds(points);
    let mut rows = [0; 16];
    for (x, y) in moved(points, (-least.0, -least.1)) {
        rows[y as usize] |= 1 << x;
    }
    list_of_rows((0, 0), &rows)
}

/// The plan list of these masks for a shape whose least x and y are those of the offset.
fn plan((dx, dy): Point, masks: &[u32]) -> Vec<u32> {
    let place = (dx + 15) as u32 | ((dy + 15) as u32) << 8;
    let stages = masks.iter().map(|mask| 0x5000_0000 | mask);
    let head = [0x3000_0000 | masks.len() as u32, 0x4000_0000 | place];
    head.into_iter().chain(stages).collect()
}

#[test]
fn the_row_of_four_cells() {
    let row = [0x10000000, 0x2000000f];
    let words = [0x30000002, 0x40000f0f, 0x50000003, 0x50000005];
    gives(&Case::of_planning(&row, 32), &words);
    gives(&Case::of_planning(&row, 40), &words);
    refused(&Case::of_planning(&row, 31), 9);
}

#[test]
fn one_cell() {
    let cell = |anchor: u32| Case::of_planning(&[anchor, 0x20000001], 32);
    gives(&cell(0x10000000), &[0x30000000, 0x40000f0f]);
    gives(&cell(0x100000ff), &[0x30000000, 0x40000000]);
}

#[test]
fn columns_without_a_chain() {
    for columns in [0b1001, 0b1011] {
        let row = [0x10000000, 0x20000000 | columns];
        refused(&Case::of_planning(&row, 32), 10);
        refused(&Case::of_planning(&row, 31), 9);
    }
}

#[test]
fn the_eight_point_shape() {
    let points = [
        (0, 0),
        (1, 1),
        (2, 1),
        (1, 2),
        (3, 2),
        (2, 3),
        (3, 3),
        (4, 4),
    ];
    let case = Case::of_planning(&list_at_corner(&points), 32);
    gives(&case, &plan((0, 0), &[17, 33, 129]));
}

#[test]
fn the_full_window() {
    let points = shape(|_| true, 0, 15);
    takes(&points, 8);
}

#[test]
fn a_list_of_17_words_passes_and_18_give_1() {
    let column = |words: u32| {
        let row = |y: u32| 0x20000001 | y.min(15) << 16;
        let rows = (0..words - 1).map(row);
        [0x10000000].into_iter().chain(rows).collect::<Vec<u32>>()
    };
    // For h = 15 one of eight stages adds 1, which only 9 does; 65 and 73 add 2.
    let mut masks = [65; 8];
    masks[0] = 9;
    gives(&Case::of_planning(&column(17), 32), &plan((0, 0), &masks));
    refused(&Case::of_planning(&column(18), 32), 1);
    refused(&Case::of_planning(&column(18), 31), 1);
}

#[test]
fn empty_lists() {
    for out_n in [0, 31, 32] {
        refused(&Case::of_planning(&[], out_n), 1);
        refused(&Case::of_planning(&[0x10000000], out_n), 1);
    }
}

/// The points with x and y from `low` to `high` that the rule takes.
fn shape(rule: impl Fn(Point) -> bool, low: i64, high: i64) -> Vec<Point> {
    let row = |y: i64| (low..=high).map(move |x| (x, y));
    let all = (low..=high).flat_map(row);
    all.filter(|&point| rule(point)).collect()
}

/// The shape has a plan of so many stages, and the library finds it.
fn takes(points: &[Point], n: usize) {
    let masks = shortest(points).expect("a chain");
    assert_eq!(masks.len(), n, "{masks:?}");
    let case = Case::of_planning(&list_at_corner(points), 32);
    gives(&case, &plan((0, 0), &masks));
}

/// Document 003, section 5: D(r) has the points with x² + y² at most r².
fn disk(r: i64) -> Vec<Point> {
    shape(|(x, y)| x * x + y * y <= r * r, -r, r)
}

#[test]
fn digital_disks() {
    takes(&disk(2), 2);
    takes(&disk(4), 4);
    // D(8) is wider than the window.
    for r in [3, 5, 6, 7] {
        refused(&Case::of_planning(&list_at_corner(&disk(r)), 32), 10);
    }
}

/// The points of i times `each`, summed with `last`.
fn family(i: usize, each: &[Point], last: &[Point]) -> Vec<Point> {
    (0..i).fold(last.to_vec(), |points, _| summed(&points, each))
}

/// Document 003, section 4.3: X, Y and Z of i, for every i that fits the window. X of 7
/// has h = 16, Y and Z of 8 have h = 17.
#[test]
fn families_of_park_and_chin() {
    let (d1, d2, d3, d4) = ((-1, 1), (1, -1), (0, 0), (0, -1));
    for i in 1..=6 {
        takes(&family(i, &[d1, d2], &[d1, d3, d4]), i + 1);
    }
    for i in 1..=7 {
        takes(&family(i, &[d1, d4], &[d3, d4]), i + 1);
        takes(&family(i, &[d1, d4], &[d1, d3]), i + 1);
    }
}
