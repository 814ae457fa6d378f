//! (w) The four operations on large frames with cells that weren't measured, by plans of up
//! to thirty stages, with results worked out by hand or what the plan's points give directly.
//! Bytes past the grid stay as they are, whatever the images held.

use musqerpi_tests::frames::grid_of;
use musqerpi_tests::operations::by_rule::in_frame;
use musqerpi_tests::operations::check::Checker;
use musqerpi_tests::operations::library::{operate, part};
use musqerpi_tests::operations::makers::Maker;
use musqerpi_tests::operations::{in_turn, plan_list, Case, Op, OPS};
use musqerpi_tests::reference::points::{of_plan, Point};

/// Sides about a word of 64 cells, in the frame and in the grid, which has 15 more, and
/// about the least and the greatest.
const SIDES: [usize; 16] = [
    1, 2, 17, 48, 49, 50, 63, 64, 65, 112, 113, 114, 128, 129, 239, 240,
];

const SIZES: [(usize, usize); 7] = [
    (240, 240),
    (239, 64),
    (64, 65),
    (65, 63),
    (49, 50),
    (1, 240),
    (240, 1),
];

/// The corners, the middle of each side, and the middle.
fn places((w, h): (usize, usize)) -> Vec<Point> {
    let (right, bottom) = (w as i64 - 1, h as i64 - 1);
    let column = |x: i64| [0, bottom / 2, bottom].map(|y| (x, y));
    let mut places = [0, right / 2, right].map(column).concat();
    places.sort();
    places.dedup();
    places
}

/// An operation with images just long enough.
fn case(op: Op, plan: &[u32], size: (usize, usize), frame: &[u8]) -> Case {
    let grid = grid_of(size.0, size.1);
    Case::new(op, plan, size, frame, (grid, grid))
}

/// One cell unlike all others, by the square of 15 by 15 about each cell, of seven stages:
/// what is greater in 0 < 2 < 1 grows to a square by dilation, what is less by erosion.
#[test]
fn a_square_about_one_cell() {
    let (mut checker, square) = (Checker::new(1301), plan_list((-7, -7), &[511; 7]));
    let grows = [
        (Op::Dilate, 0, 2),
        (Op::Dilate, 2, 1),
        (Op::Erode, 1, 2),
        (Op::Erode, 2, 0),
    ];
    for size in SIZES.into_iter().filter(|&(w, h)| w > 15 && h > 15) {
        for (px, py) in places(size) {
            for (op, others, one) in grows {
                let about = |off: i64| {
                    in_frame(size, |(x, y)| {
                        let near = (x - px).abs() <= off && (y - py).abs() <= off;
                        if near {
                            one
                        } else {
                            others
                        }
                    })
                };
                // Cells outside are the least for dilation and the greatest for erosion, and
                // each square has a cell of the frame: they change nothing.
                checker.gives(&case(op, &square, size, &about(0)), 7, &about(7));
            }
        }
    }
}

/// The same cells in frames of each value, by plans that reach far to one side, against the
/// plan's points.
#[test]
fn one_cell_at_each_place() {
    let mut checker = Checker::new(1302);
    let plans = [
        plan_list((-1, -1), &[511]),
        plan_list((0, 0), &[27, 511, 511, 511, 511, 511, 511, 511]),
        plan_list((-15, 0), &[[3; 15], [9; 15]].concat()),
        plan_list((15, -15), &[]),
        plan_list((-13, 0), &[186; 7]),
    ];
    let kinds = [(0, 2), (1, 2), (2, 0), (2, 1), (0, 1), (1, 0)];
    for size in SIZES {
        for (i, (x, y)) in places(size).into_iter().enumerate() {
            for (j, (others, one)) in kinds.into_iter().enumerate() {
                let mut frame = vec![others; size.0 * size.1];
                frame[y as usize * size.0 + x as usize] = one;
                let plan = &plans[(i + j) % plans.len()];
                for op in OPS {
                    checker.answers(&case(op, plan, size, &frame), 0);
                }
            }
        }
    }
    checker.tally.assert_unmeasured(40);
}

/// Frames of which no cell is measured: dilation and erosion give 2 where a cell of the frame
/// is covered, and what is outside where none is.
#[test]
fn frames_of_2_alone() {
    let (mut maker, mut checker) = (Maker::new(1303), Checker::new(1304));
    for size in SIZES.into_iter().chain([(1, 1), (3, 2), (16, 17)]) {
        let (columns, rows) = (0..size.0 as i64, 0..size.1 as i64);
        let inside = |x: i64, y: i64| columns.contains(&x) && rows.contains(&y);
        let frame = vec![2; size.0 * size.1];
        for _ in 0..20 {
            let plan = maker.plan();
            let a = of_plan(&plan);
            let by = |sign: i64, outside: u8| {
                in_frame(size, |(x, y)| {
                    let meets = a.iter().any(|q| inside(x + sign * q.0, y + sign * q.1));
                    if meets {
                        2
                    } else {
                        outside
                    }
                })
            };
            let stages = plan.len() - 2;
            checker.gives(&case(Op::Dilate, &plan, size, &frame), stages, &by(-1, 0));
            checker.gives(&case(Op::Erode, &plan, size, &frame), stages, &by(1, 1));
            checker.answers(&case(Op::Open, &plan, size, &frame), 0);
            checker.answers(&case(Op::Close, &plan, size, &frame), 0);
        }
    }
}

/// Squares of two by two to sixteen by sixteen, of one to eight stages, by several offsets:
/// also what the library's single stages give in turn.
#[test]
fn squares_of_many_stages() {
    let (mut maker, mut checker) = (Maker::new(1305), Checker::new(1306));
    for side in 2..=16i64 {
        let odd = if side % 2 == 0 { &[27][..] } else { &[] };
        let masks = [odd, &vec![511; (side as usize - 1) / 2]].concat();
        for (dx, dy) in [
            (0, 0),
            (-15, 0),
            (-side / 2, -side / 2),
            (1 - side, 16 - side),
        ] {
            let plan = plan_list((dx, dy), &masks);
            for size in [(40, 33), (64, 20), (23, 65)] {
                for op in OPS {
                    let mut case = maker.case(op, &plan, size);
                    case.frame[0] = 2;
                    let (_, part) = checker.check(&case).expect("no ground holds");
                    assert_eq!(in_turn::cells(&case), part, "{case}: stages in turn");
                }
            }
        }
    }
    checker.tally.assert_results(30);
    checker.tally.assert_unmeasured(60);
}

/// Pictures of every width and height in the list, in all pairs, by any plans.
#[test]
fn sides_about_words() {
    let (mut maker, mut checker) = (Maker::new(1307), Checker::new(1308));
    for w in SIDES {
        for h in SIDES {
            let plan = maker.plan();
            let mut frame = maker.picture((w, h));
            let n = frame.len();
            for place in [0, w - 1, n - w, n - 1] {
                frame[place] = maker.random.pick(&[0, 1, 2, 2]);
            }
            let images = maker.images((w, h));
            for op in OPS {
                checker.answers(&Case::new(op, &plan, (w, h), &frame, images), 0);
            }
        }
    }
    checker.tally.assert_results(40);
    checker.tally.assert_unmeasured(80);
}

/// The part is the same whatever the images held, each value of a cell among it, and the
/// bytes past the grid are as they were.
#[test]
fn whatever_the_images_held() {
    let mut maker = Maker::new(1309);
    for round in 0..200 {
        let size = match round % 20 {
            0 => (240, 240),
            _ => (1 + maker.random.below(70), 1 + maker.random.below(40)),
        };
        let (plan, frame) = (maker.plan(), maker.picture(size));
        let (grid, past) = (grid_of(size.0, size.1), 1 + maker.random.below(40));
        for op in OPS {
            let parts = [0, 1, 2, 3, 255].map(|byte| {
                let (mut first, mut second) = (vec![byte; grid + past], vec![!byte; grid + past]);
                let answer = operate(op, &plan, size, &frame, &mut first, &mut second);
                let mut image = 0;
                let length = part(answer, size, &first, &second, &mut image) as usize;
                let unchanged = first[grid..].iter().all(|&found| found == byte)
                    && second[grid..].iter().all(|&found| found == !byte);
                assert!(unchanged, "{op:?} by {plan:x?} on {size:?}, past the grid");
                [&first, &second][usize::from(image) - 1][..length].to_vec()
            });
            assert_eq!(parts[0].len(), frame.len(), "{op:?} by {plan:x?}");
            let same = parts.iter().all(|part| *part == parts[0]);
            assert!(same, "{op:?} by {plan:x?} on {size:?} {frame:?}");
        }
    }
}
