//! (v) The four operations on frames with cells that weren't measured, request W5 of
//! document 02: every small frame over the three values, against the rule asked of each
//! covered cell, and the laws that tie three values to two.

use musqerpi_tests::frames::cells::Cells;
use musqerpi_tests::frames::makers::{every_frame, sizes_of};
use musqerpi_tests::operations::by_rule;
use musqerpi_tests::operations::makers::Maker;
use musqerpi_tests::operations::plane::Plane;
use musqerpi_tests::operations::quick::Images;
use musqerpi_tests::operations::reference::on_the_plane;
use musqerpi_tests::operations::{plan_list, Op, OPS};
use musqerpi_tests::reference::points::{of_plan, Point};

/// Every non-empty shape within two by two cells, as masks: a point, pairs, corners of three
/// cells and the square. All others are moves of these.
const WITHIN_TWO: [&[u32]; 10] = [
    &[],
    &[3],
    &[9],
    &[10],
    &[17],
    &[11],
    &[19],
    &[25],
    &[26],
    &[27],
];

/// Lines, slants, a cross, a ring, squares and points far apart within three by three
/// cells, and some by two stages.
const WITHIN_THREE: [&[u32]; 14] = [
    &[5],
    &[7],
    &[65],
    &[73],
    &[84],
    &[186],
    &[257],
    &[325],
    &[341],
    &[495],
    &[511],
    &[3, 9],
    &[10, 17],
    &[27, 27],
];

const OFFSETS: [Point; 5] = [(0, 0), (-1, 0), (0, -1), (-1, -1), (1, -2)];
const FAR: [Point; 2] = [(-15, -15), (12, -13)];

/// A plan list and its points.
struct Shape {
    plan: Vec<u32>,
    points: Vec<Point>,
}

impl Shape {
    fn new(masks: &[u32], offset: Point) -> Shape {
        let plan = plan_list(offset, masks);
        let points = of_plan(&plan);
        Shape { plan, points }
    }
}

/// All four operations of the library give what the rule gives.
fn compare(images: &mut Images, shape: &Shape, size: (usize, usize), frame: &[u8]) -> u64 {
    for op in OPS {
        let wanted = by_rule::cells(op, size, frame, &shape.points);
        let part = images.part(op, &shape.plan, size, frame);
        let plan = &shape.plan;
        assert_eq!(part, wanted, "{op:?} by {plan:x?} on {size:?} {frame:?}");
    }
    OPS.len() as u64
}

/// Every frame of so many cells at most, by those shapes that are chosen for its number.
fn every_small_frame(cells: usize, shapes: &[Shape], chosen: impl Fn(usize) -> Vec<usize>) -> u64 {
    let mut cases = 0;
    for size in (1..=cells).flat_map(sizes_of) {
        let mut images = Images::new(size, 7);
        for (number, frame) in every_frame(size.0 * size.1).enumerate() {
            for i in chosen(number) {
                cases += compare(&mut images, &shapes[i], size, &frame);
            }
        }
    }
    println!("{cases} cases");
    cases
}

/// Each of these shapes with each offset, the offsets of a shape side by side.
fn shapes(masks: &[&[u32]], offsets: &[Point]) -> Vec<Shape> {
    let of = |masks: &&[u32]| -> Vec<Shape> {
        let with = |&offset: &Point| Shape::new(masks, offset);
        offsets.iter().map(with).collect()
    };
    masks.iter().flat_map(of).collect()
}

/// All frames of nine cells or fewer, 93,387 of them, by five of the shapes within two by
/// two, with another offset for the next frame.
fn every_frame_of_nine_cells(masks: &[&[u32]]) {
    let (shapes, offsets) = (shapes(masks, &OFFSETS), OFFSETS.len());
    let with = |number: usize| [0, 1, 2, 3, 4].map(|i| i * offsets + (number + i) % offsets);
    let cases = every_small_frame(9, &shapes, |number| with(number).to_vec());
    assert_eq!(cases, 93_387 * 5 * 4);
}

#[test]
fn every_frame_of_nine_cells_by_a_point_and_pairs() {
    every_frame_of_nine_cells(&WITHIN_TWO[..5]);
}

#[test]
fn every_frame_of_nine_cells_by_corners_and_the_square() {
    every_frame_of_nine_cells(&WITHIN_TWO[5..]);
}

/// The same frames by every other of the shapes within three by three, the others for the
/// next frame.
#[test]
fn every_frame_of_nine_cells_by_shapes_within_three() {
    let (shapes, offsets) = (shapes(&WITHIN_THREE, &OFFSETS), OFFSETS.len());
    let with = |number: usize| {
        let halves = [0, 2, 4, 6, 8, 10, 12].map(|i| i + number % 2);
        halves.map(|i| i * offsets + (number / 2 + i) % offsets)
    };
    let cases = every_small_frame(9, &shapes, |number| with(number).to_vec());
    assert_eq!(cases, 93_387 * 7 * 4);
}

/// Every frame of five cells or fewer by all of these shapes with all offsets, and with some
/// that leave the frame.
#[test]
fn every_frame_of_five_cells_by_all_shapes() {
    let offsets = [&OFFSETS[..], &FAR].concat();
    let shapes = shapes(&[&WITHIN_TWO[..], &WITHIN_THREE].concat(), &offsets);
    let cases = every_small_frame(5, &shapes, |_| (0..shapes.len()).collect());
    assert_eq!(cases, 804 * 24 * 7 * 4);
}

/// The operation on the whole plane by the rule asked of each covered cell.
fn by_the_rule(op: Op, x: &Cells, a: &[Point]) -> Cells {
    match op {
        Op::Dilate => x.dilated(a),
        Op::Erode => x.eroded(a),
        Op::Open => x.eroded(a).dilated(a),
        Op::Close => x.dilated(a).eroded(a),
    }
}

/// The reference's window, which large frames are compared with, against the rule on the
/// whole plane about the frame, whatever cells outside are.
#[test]
fn the_window_against_the_rule() {
    let mut maker = Maker::new(1201);
    for round in 0..300u32 {
        let (plan, size) = (maker.plan(), maker.frames.size());
        let size = (size.0.min(20), size.1.min(20));
        let (a, frame, outside) = (of_plan(&plan), maker.picture(size), (round % 2) as u8);
        let x = Cells::new(&frame, size.0, 0, outside);
        for op in OPS {
            let made = on_the_plane(op, &Plane::of_frame(size, &frame, outside), &a);
            let wanted = by_the_rule(op, &x, &a);
            let same = Plane::points(size)
                .iter()
                .all(|&p| made.at(p) == wanted.at(p));
            assert!(same, "{op:?} by {plan:x?} on {size:?} {frame:?}");
        }
    }
}

/// A measured frame: 1 where the question holds of a cell, 0 where it doesn't.
fn where_it_is(cells: &[u8], question: fn(u8) -> bool) -> Vec<u8> {
    cells.iter().map(|&cell| u8::from(question(cell))).collect()
}

/// Asked of each cell whether it is 1, or whether it isn't 0, frame and result still belong
/// together, by all four operations. So what no hole has a say in is as if none were there.
#[test]
fn thresholds() {
    let (mut maker, mut unmeasured) = (Maker::new(1202), [0; 4]);
    for round in 0..1_500 {
        let size = match round % 30 {
            0 => (240, 240),
            1 => maker.frames.size(),
            _ => (1 + maker.random.below(40), 1 + maker.random.below(40)),
        };
        let (plan, frame) = (maker.plan(), maker.picture(size));
        let mut images = Images::new(size, 7);
        for (i, op) in OPS.into_iter().enumerate() {
            let part = images.part(op, &plan, size, &frame).to_vec();
            for question in [|cell: u8| cell == 1, |cell: u8| cell != 0] {
                let measured = where_it_is(&frame, question);
                let found = images.part(op, &plan, size, &measured);
                let same = found == where_it_is(&part, question);
                assert!(same, "{op:?} by {plan:x?} on {size:?} {frame:?}");
            }
            unmeasured[i] += u32::from(part.contains(&2));
        }
    }
    println!("results with a 2 {unmeasured:?}");
    assert!(unmeasured.iter().all(|&count| count >= 150));
}

/// What is measured stays measured.
#[test]
fn no_2_comes_of_measured_frames() {
    let mut maker = Maker::new(1203);
    for _ in 0..600 {
        let (plan, size) = (maker.plan(), maker.frames.size());
        let frame = maker.measured(size);
        // Images full of 2, of which no result may have one.
        let mut images = Images::new(size, 2);
        for op in OPS {
            let part = images.part(op, &plan, size, &frame);
            let measured = part.iter().all(|&cell| cell < 2);
            assert!(measured, "{op:?} by {plan:x?} on {size:?}");
        }
    }
}
