//! (i) The four operations and the part where nothing is refused: every result is
//! compared with what the plan's points give directly. Both images are dirty.

use musqerpi_tests::cases::hex;
use musqerpi_tests::frames::measured::{lay, minus, occupied, plus};
use musqerpi_tests::lists::planning::{Kind, KINDS};
use musqerpi_tests::lists::{list_of_rows, Maker as Lists};
use musqerpi_tests::operations::check::Checker;
use musqerpi_tests::operations::in_turn;
use musqerpi_tests::operations::makers::{planned as planned_list, Maker};
use musqerpi_tests::operations::plane::Plane;
use musqerpi_tests::operations::reference::{directly, on_the_plane};
use musqerpi_tests::operations::{plan_list, Case, Op, OPS};
use musqerpi_tests::reference::points::{bounds, of_plan, of_shape, Point};

/// Every size with W and H from 1 to 5.
fn small_sizes() -> Vec<(usize, usize)> {
    (1..=5).flat_map(|w| (1..=5).map(move |h| (w, h))).collect()
}

/// Offsets at their extremes for a plan that reaches so far: -15, 0 and 15, or the
/// greatest that ground 8 allows.
fn extremes(extent: i64) -> [i64; 3] {
    [-15, 0.min(15 - extent), 15 - extent]
}

/// The reference's window against sets of points, on the whole plane about measured frames,
/// where every cell outside is free: nothing is lost at its edges.
#[test]
fn the_window_against_sets_of_points() {
    let mut maker = Maker::new(501);
    for _ in 0..600 {
        let (plan, size) = (maker.plan(), maker.frames.size());
        let size = (size.0.min(20), size.1.min(20));
        let (a, frame) = (of_plan(&plan), maker.measured(size));
        let x = occupied(&frame, size.0);
        for op in OPS {
            let made = on_the_plane(op, &Plane::of_frame(size, &frame, 0), &a);
            let wanted = match op {
                Op::Dilate => plus(&x, &a),
                Op::Erode => minus(&x, &a),
                Op::Open => plus(&minus(&x, &a), &a),
                Op::Close => minus(&plus(&x, &a), &a),
            };
            let same = |&p: &Point| made.at(p) == u8::from(wanted.contains(&p));
            let same = Plane::points(size).iter().all(same);
            assert!(same, "{op:?} by {plan:x?} on {size:?} {frame:?}");
            let mut cells = vec![9; size.0 * size.1];
            lay(&wanted, size.0, &mut cells);
            assert_eq!(made.cells(size), cells, "{op:?}, the cells");
        }
    }
}

/// All contents of frames of eight cells or fewer, twenty plans each.
#[test]
fn every_small_frame() {
    let (mut maker, mut checker) = (Maker::new(502), Checker::new(503));
    for (w, h) in small_sizes().into_iter().filter(|(w, h)| w * h <= 8) {
        for bits in 0u32..1 << (w * h) {
            let frame: Vec<u8> = (0..w * h).map(|i| (bits >> i & 1) as u8).collect();
            for _ in 0..20 {
                let (plan, images) = (maker.plan(), maker.images((w, h)));
                for op in OPS {
                    checker.answers(&Case::new(op, &plan, (w, h), &frame, images), 0);
                }
            }
        }
    }
    checker.tally.assert_answers(&[0], 15_560);
    checker.tally.assert_results(300);
}

/// Pictures of the other small sizes.
#[test]
fn many_frames_up_to_five_by_five() {
    let (mut maker, mut checker) = (Maker::new(504), Checker::new(505));
    for size in small_sizes() {
        for _ in 0..1_000 {
            let plan = maker.plan();
            for op in OPS {
                let case = maker.case(op, &plan, size);
                checker.answers(&case, 0);
            }
        }
    }
    checker.tally.assert_answers(&[0], 25_000);
    checker.tally.assert_results(300);
    checker.tally.assert_unmeasured(300);
}

/// Plans that no planner wrote, of 0 to 30 stages, on random sizes.
#[test]
fn plan_lists_on_random_sizes() {
    let (mut maker, mut checker) = (Maker::new(506), Checker::new(507));
    for round in 0..6_000 {
        let plan = maker.plan();
        let size = match round % 10 {
            0 => maker.frames.size(),
            _ => (1 + maker.random.below(40), 1 + maker.random.below(40)),
        };
        for op in OPS {
            let case = maker.case(op, &plan, size);
            checker.answers(&case, 0);
        }
    }
    checker.tally.assert_answers(&[0], 6_000);
    checker.tally.assert_results(400);
    checker.tally.assert_unmeasured(400);
    checker.tally.assert_stages(12, 20);
}

/// The greatest extents by the most stages: w = h = 15 by 30 stages of one step each.
#[test]
fn thirty_stages() {
    let (mut maker, mut checker) = (Maker::new(508), Checker::new(509));
    let masks = [[3; 15], [9; 15]].concat();
    for size in [(1, 1), (16, 16), (17, 31), (60, 50)] {
        for (dx, dy) in [(-15, -15), (0, 0), (-15, 0), (-7, -8)] {
            let plan = plan_list((dx, dy), &masks);
            for op in OPS {
                let mut case = maker.case(op, &plan, size);
                checker.answers(&case, 0);
                case.frame.fill(1);
                checker.answers(&case, 0);
                checker.answers(&maker.case(op, &plan, size), 0);
            }
        }
    }
    checker.tally.assert_results(5);
}

/// Random shapes through planning, then the operation on the words that it wrote: the
/// part is also what the shape's own points give directly.
fn planned(kind: Kind, shapes: usize, limit: i64, seed: u64) -> u64 {
    let (mut maker, mut checker) = (Maker::new(seed), Checker::new(!seed));
    for _ in 0..shapes {
        let Some((shape, plan)) = maker.planned(kind, limit) else {
            continue;
        };
        let size = (1 + maker.random.below(24), 1 + maker.random.below(24));
        for op in OPS {
            let case = maker.case(op, &plan, size);
            let (_, part) = checker.check(&case).expect("no ground holds");
            let made = directly(op, size, &case.frame, &of_shape(&shape));
            assert_eq!(made, part, "{} by {case}", hex(&shape));
        }
    }
    checker.tally.assert_results(30);
    checker.tally.cases
}

#[test]
fn planned_shapes() {
    let mut cases = 0;
    for (i, kind) in KINDS.into_iter().enumerate() {
        cases += planned(kind, 1_000, 3, 510 + i as u64);
    }
    cases += planned(Lists::sum_of_stages, 1_000, 7, 513);
    cases += planned(Lists::sum_of_stages, 200, 11, 514);
    assert!(cases >= 4 * 2_000, "{cases} cases of shapes with a plan");
}

/// The full window, of eight stages, by anchors at its corners and inside.
#[test]
fn the_full_window() {
    let (mut maker, mut checker) = (Maker::new(523), Checker::new(524));
    for anchor in [(0, 0), (15, 15), (0, 15), (15, 0), (7, 8)] {
        let plan = planned_list(&list_of_rows(anchor, &[0xffff; 16])).expect("a plan");
        for size in [(1, 1), (15, 16), (17, 17), (40, 30), (240, 240)] {
            for op in OPS {
                let mut case = maker.case(op, &plan, size);
                checker.answers(&case, 0);
                case.frame.fill(1);
                checker.answers(&case, 0);
            }
        }
    }
    checker.tally.assert_answers(&[0], 50);
}

/// Every offset that is an extreme in x and in y, by plans of none to fifteen stages; the
/// nine of dx and dy from -15, 0 and 15 all come up.
#[test]
fn offsets_at_their_extremes() {
    let (mut maker, mut checker) = (Maker::new(515), Checker::new(516));
    let plans: [&[u32]; 8] = [
        &[],
        &[3],
        &[65],
        &[273],
        &[511],
        &[7, 7, 73],
        &[511; 7],
        &[3; 15],
    ];
    let mut offsets = Vec::new();
    for masks in plans {
        let (w, h) = bounds(&of_plan(&plan_list((0, 0), masks))).1;
        for dx in extremes(w) {
            for dy in extremes(h) {
                offsets.push((dx, dy));
                let plan = plan_list((dx, dy), masks);
                for size in [(1, 1), (5, 4), (16, 16), (33, 18)] {
                    for op in OPS {
                        for _ in 0..4 {
                            let case = maker.case(op, &plan, size);
                            checker.answers(&case, 0);
                        }
                    }
                }
            }
        }
    }
    for (dx, dy) in [-15, 0, 15]
        .map(|dx| [-15, 0, 15].map(|dy| (dx, dy)))
        .concat()
    {
        assert!(offsets.contains(&(dx, dy)), "{dx}, {dy} was not tried");
    }
    checker.tally.assert_answers(&[0], 1_152);
    checker.tally.assert_results(200);
}

/// The greatest frames, and the longest of one row and of one column.
#[test]
fn the_greatest_sizes() {
    let (mut maker, mut checker) = (Maker::new(517), Checker::new(518));
    for _ in 0..150 {
        let plan = maker.plan();
        for size in [(240, 240), (240, 1), (1, 240), (239, 240)] {
            for op in OPS {
                let case = maker.case(op, &plan, size);
                checker.answers(&case, 0);
            }
        }
    }
    checker.tally.assert_answers(&[0], 600);
    checker.tally.assert_results(100);
}

/// What the single stages give in turn is the part too, in the operation's kind of grid.
#[test]
fn single_stages_in_turn() {
    let (mut maker, mut checker) = (Maker::new(519), Checker::new(520));
    for round in 0..2_500 {
        let plan = match round % 2 {
            0 => maker.plan(),
            _ => loop {
                if let Some((_, plan)) = maker.planned(Lists::sum_of_stages, 6) {
                    break plan;
                }
            },
        };
        let size = (1 + maker.random.below(30), 1 + maker.random.below(30));
        for op in OPS {
            let case = maker.case(op, &plan, size);
            let (_, part) = checker.check(&case).expect("no ground holds");
            assert_eq!(in_turn::cells(&case), part, "{case}: stages in turn");
        }
    }
    checker.tally.assert_answers(&[0], 2_500);
    checker.tally.assert_results(300);
    checker.tally.assert_unmeasured(300);
}

/// Images that end with the grid, and images longer by each of some numbers of bytes.
#[test]
fn lengths_of_the_images() {
    let (mut maker, mut checker) = (Maker::new(521), Checker::new(522));
    for (w, h) in [(1, 1), (3, 2), (20, 9)] {
        let grid = (w + 15) * (h + 15);
        for first in [0, 1, 2, 15, 16, 300] {
            for second in [0, 1, 2, 15, 16, 300] {
                for plan in [plan_list((0, 0), &[7]), plan_list((-1, 2), &[3, 9])] {
                    for op in OPS {
                        let mut case = maker.case(op, &plan, (w, h));
                        (case.first_n, case.second_n) = (grid + first, grid + second);
                        checker.answers(&case, 0);
                    }
                }
            }
        }
    }
    checker.tally.assert_results(50);
}
