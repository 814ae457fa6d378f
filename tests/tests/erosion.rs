//! (t) Cells outside the frame are occupied for erosion alone, and free for the three other
//! operations and within them. Results are written out, or what the plan's points give
//! directly and what the single stages give in turn.

use musqerpi_tests::frames::measured::{lay, minus, occupied, of_frame, plus};
use musqerpi_tests::frames::{grid_of, Around};
use musqerpi_tests::operations::check::Checker;
use musqerpi_tests::operations::in_turn::{cells, cells_by_reference};
use musqerpi_tests::operations::makers::Maker;
use musqerpi_tests::operations::reference::directly;
use musqerpi_tests::operations::{plan_list, Case, Op, OPS};
use musqerpi_tests::reference::points::{bounds, of_plan, Point};

/// An operation with images just long enough.
fn case(op: Op, plan: &[u32], size: (usize, usize), frame: &[u8]) -> Case {
    let grid = grid_of(size.0, size.1);
    Case::new(op, plan, size, frame, (grid, grid))
}

/// The part is what the points give directly, and what the single stages give in turn by
/// the library's own calls.
fn agrees(checker: &mut Checker, case: &Case) {
    let (_, part) = checker.check(case).expect("no ground holds");
    assert_eq!(cells(case), part, "{case}: stages in turn");
}

/// Offsets at their extremes for a plan that reaches so far, and one between.
fn extremes(extent: i64) -> [i64; 4] {
    [-15, -7, 0.min(15 - extent), 15 - extent]
}

/// The plan lists of these masks with all offsets at their extremes.
fn at_extremes(masks: &[u32]) -> Vec<Vec<u32>> {
    let (w, h) = bounds(&of_plan(&plan_list((0, 0), masks))).1;
    let row = |dx: i64| extremes(h).map(|dy| plan_list((dx, dy), masks));
    extremes(w).into_iter().flat_map(row).collect()
}

/// Plans that reach 15 in x, in y or in both, by lines, slants and squares, and small ones.
fn plans() -> Vec<Vec<u32>> {
    let long = |first: &[u32], last: u32, n: usize| [first, &vec![last; n]].concat();
    vec![
        vec![],
        vec![3],
        vec![65],
        vec![68],
        long(&[], 3, 15),
        long(&[], 9, 15),
        long(&[3], 5, 7),
        long(&[9], 65, 7),
        long(&[17], 273, 7),
        long(&[10], 84, 7),
        long(&[27], 511, 7),
        [[3; 15], [9; 15]].concat(),
    ]
}

/// Measured frames: against the frame joined to everything outside it as far as the plan's
/// points reach, and against all points but the free ones moved back by each of the plan's.
#[test]
fn direct_erosion_against_sets_of_points() {
    let mut maker = Maker::new(901);
    for _ in 0..400 {
        let (plan, size) = (maker.plan(), maker.frames.size());
        let size = (size.0.min(20), size.1.min(20));
        let (a, frame) = (of_plan(&plan), maker.measured(size));
        let found = directly(Op::Erode, size, &frame, &a);
        let joined = of_frame(size, &frame, Around::Occupied, 15);
        let mut wanted = vec![9; size.0 * size.1];
        lay(&minus(&joined, &a), size.0, &mut wanted);
        assert_eq!(found, wanted, "{plan:x?} on {size:?} {frame:?}");
        let free: Vec<u8> = frame.iter().map(|cell| 1 - cell).collect();
        let back: Vec<Point> = a.iter().map(|q| (-q.0, -q.1)).collect();
        lay(&plus(&occupied(&free, size.0), &back), size.0, &mut wanted);
        wanted.iter_mut().for_each(|cell| *cell = 1 - *cell);
        assert_eq!(found, wanted, "{plan:x?} on {size:?} {frame:?}, free ones");
    }
}

/// The single stages in turn by the reference's grids give what the plan's points give directly.
#[test]
fn grids_of_the_reference_in_turn() {
    let mut maker = Maker::new(902);
    let extremes: Vec<Vec<u32>> = plans().iter().flat_map(|m| at_extremes(m)).collect();
    for round in 0..300 {
        let plan = match round % 3 {
            0 => extremes[maker.random.below(extremes.len())].clone(),
            _ => maker.plan(),
        };
        let size = (1 + maker.random.below(9), 1 + maker.random.below(9));
        for op in OPS {
            let case = maker.case(op, &plan, size);
            let direct = directly(op, size, &case.frame, &of_plan(&plan));
            assert_eq!(cells_by_reference(&case), direct, "{case}");
        }
    }
}

/// All contents of frames of six cells or fewer, by every plan above at all extremes.
#[test]
fn every_small_frame_at_the_extremes() {
    let mut checker = Checker::new(903);
    for size in [(1, 1), (2, 1), (1, 2), (6, 1), (1, 6), (2, 2), (3, 2)] {
        for bits in 0u32..1 << (size.0 * size.1) {
            let cell = |i: usize| (bits >> i & 1) as u8;
            let frame: Vec<u8> = (0..size.0 * size.1).map(cell).collect();
            for plan in plans().iter().flat_map(|masks| at_extremes(masks)) {
                agrees(&mut checker, &case(Op::Erode, &plan, size, &frame));
            }
        }
    }
    println!("{} cases", checker.tally.cases);
}

/// One row, one column, and larger frames, empty, full, and of rectangles.
#[test]
fn larger_frames_at_the_extremes() {
    let (mut maker, mut checker) = (Maker::new(904), Checker::new(905));
    let sizes = [
        (16, 1),
        (1, 16),
        (240, 1),
        (1, 240),
        (15, 16),
        (31, 14),
        (33, 40),
    ];
    for plan in plans().iter().flat_map(|masks| at_extremes(masks)) {
        for size in sizes {
            let cells = size.0 * size.1;
            for frame in [vec![0; cells], vec![1; cells], maker.picture(size)] {
                agrees(&mut checker, &case(Op::Erode, &plan, size, &frame));
            }
        }
    }
    println!("{} cases", checker.tally.cases);
}

#[test]
fn the_greatest_frame_at_the_extremes() {
    let (mut maker, mut checker) = (Maker::new(906), Checker::new(907));
    let size = (240, 240);
    for plan in plans().iter().flat_map(|masks| at_extremes(masks)) {
        let frame = maker.picture(size);
        agrees(&mut checker, &case(Op::Erode, &plan, size, &frame));
    }
    println!("{} cases", checker.tally.cases);
}

/// Plans with no stage and each of the 961 offsets: cell (x, y) is (x + dx, y + dy), and 1
/// where that is outside the frame.
#[test]
fn every_single_point() {
    let (mut maker, mut checker) = (Maker::new(908), Checker::new(909));
    for dx in -15..=15 {
        for dy in -15..=15 {
            for size in [(1, 1), (1, 20), (18, 1), (4, 3), (16, 17)] {
                let plan = plan_list((dx, dy), &[]);
                let free = vec![0; size.0 * size.1];
                agrees(&mut checker, &case(Op::Erode, &plan, size, &free));
                let frame = maker.picture(size);
                agrees(&mut checker, &case(Op::Erode, &plan, size, &frame));
            }
        }
    }
    println!("{} cases", checker.tally.cases);
}

/// Random plans and pictures, by all four operations.
#[test]
fn pictures_in_turn() {
    let (mut maker, mut checker) = (Maker::new(910), Checker::new(911));
    for _ in 0..1_500 {
        let plan = maker.plan();
        let size = (1 + maker.random.below(20), 1 + maker.random.below(20));
        let case = maker.case(Op::Erode, &plan, size);
        for op in OPS {
            agrees(&mut checker, &case.by(op));
        }
    }
    checker.tally.assert_results(100);
}

/// What an operation gives of a row of cells by masks of one row, with each offset; and
/// the same of a column.
fn row_gives(op: Op, masks: &[u32], offsets: &[i64], frame: &[u8], wanted: &[u8]) {
    let n = frame.len();
    let stages = op.stages_run(masks.len());
    for &offset in offsets {
        let plan = plan_list((offset, 0), masks);
        Checker::new(912).gives(&case(op, &plan, (n, 1), frame), stages, wanted);
        let masks: Vec<u32> = masks.iter().map(|&mask| mirrored(mask)).collect();
        let plan = plan_list((0, offset), &masks);
        Checker::new(913).gives(&case(op, &plan, (1, n), frame), stages, wanted);
    }
}

/// The mask whose cell (j, i) is cell (i, j) of this one.
fn mirrored(mask: u32) -> u32 {
    let bits = (0..9).filter(|bit| mask >> bit & 1 == 1);
    bits.map(|bit| 1 << (3 * (bit % 3) + bit / 3)).sum()
}

#[test]
fn carriers_that_run_off_the_edge() {
    let erode = |masks: &[u32], offset: i64, frame: &[u8], wanted: &[u8]| {
        row_gives(Op::Erode, masks, &[offset], frame, wanted);
    };
    erode(&[3], 0, &[1, 1], &[1, 1]);
    erode(&[3], -1, &[1, 1], &[1, 1]);
    erode(&[], 1, &[1, 0, 0], &[0, 0, 1]);
    erode(&[], -1, &[1, 0, 0], &[1, 1, 0]);
    erode(&[3], 0, &[1, 1, 0], &[1, 0, 0]);
    erode(&[3], -1, &[0, 1, 1], &[0, 0, 1]);
    erode(&[7], 0, &[1, 1, 1, 0, 1], &[1, 0, 0, 0, 1]);
    erode(&[7], -2, &[1, 0, 1, 1, 1], &[1, 0, 0, 0, 1]);
    erode(&[7], -1, &[1, 1, 0, 1, 1], &[1, 0, 0, 0, 1]);
    // Columns 0 and 2 look past a cell; 15 columns off, no cell of the frame is looked at.
    erode(&[5], 0, &[0, 1, 0, 1], &[0, 1, 0, 1]);
    erode(&[5], 13, &[0, 1, 0, 1], &[1, 1, 1, 1]);
    erode(&[5], -15, &[0, 0, 0, 0], &[1, 1, 1, 1]);
}

/// Offsets of 15 on 17 cells, and the widest shape, of 16 columns.
#[test]
fn the_farthest_offsets_written_out() {
    let all_but = |places: &[usize]| {
        let cell = |place: usize| u8::from(!places.contains(&place));
        (0..17).map(cell).collect::<Vec<u8>>()
    };
    let erode = |masks: &[u32], offset: i64, free: &[usize], wanted: &[usize]| {
        let (frame, wanted) = (all_but(free), all_but(wanted));
        row_gives(Op::Erode, masks, &[offset], &frame, &wanted);
    };
    erode(&[], 15, &[0, 14, 16], &[1]);
    erode(&[], -15, &[0, 1, 2], &[15, 16]);
    let all: Vec<usize> = (0..17).collect();
    erode(&[3; 15], 0, &[16], &all[1..]);
    erode(&[3; 15], -15, &[0], &all[..16]);
    erode(&[3; 15], 0, &[0], &[0]);
    erode(&[3; 15], -15, &[16], &[16]);
    erode(&[3; 15], 0, &[], &[]);
}

/// A corner, a side and the middle of three by three cells, by the square about a cell.
#[test]
fn a_square_about_each_cell() {
    let wanted = [
        (0, [0, 0, 1, 0, 0, 1, 1, 1, 1]),
        (5, [1, 0, 0, 1, 0, 0, 1, 0, 0]),
        (7, [1, 1, 1, 0, 0, 0, 0, 0, 0]),
        (4, [0; 9]),
    ];
    let plan = plan_list((-1, -1), &[511]);
    for (free, cells) in wanted {
        let mut frame = [1; 9];
        frame[free] = 0;
        Checker::new(914).gives(&case(Op::Erode, &plan, (3, 3), &frame), 1, &cells);
    }
    Checker::new(915).gives(&case(Op::Erode, &plan, (3, 3), &[1; 9]), 1, &[1; 9]);
}

/// The halves of opening and closing, and dilation, read cells outside as free. Were they
/// occupied in one of them, some cell that is free here would be occupied.
#[test]
fn outside_is_free_for_the_others() {
    let offsets = [-15, -1, 0, 13];
    // 1 at an edge would be carried by cells outside, and so would a frame that the shape
    // is too long for.
    row_gives(Op::Open, &[3], &offsets, &[1, 0, 0, 1], &[0, 0, 0, 0]);
    row_gives(Op::Open, &[3], &offsets, &[1, 0, 1, 1], &[0, 0, 1, 1]);
    row_gives(Op::Open, &[7], &offsets, &[1, 1], &[0, 0]);
    row_gives(Op::Open, &[3, 3], &offsets, &[1, 1], &[0, 0]);
    // Occupied cells outside would dilate into the frame, or be met past its end.
    row_gives(Op::Close, &[3], &offsets, &[0, 1], &[0, 1]);
    row_gives(Op::Close, &[5], &offsets, &[1, 0, 0], &[1, 0, 0]);
    row_gives(
        Op::Close,
        &[3, 5],
        &offsets[..3],
        &[1, 0, 0, 0],
        &[1, 0, 0, 0],
    );
    row_gives(Op::Dilate, &[3], &offsets, &[0, 0], &[0, 0]);
    row_gives(Op::Dilate, &[], &[-15, -1, 1, 15], &[0, 0, 0], &[0, 0, 0]);
    // Erosion alone of the same.
    row_gives(Op::Erode, &[3], &[0], &[1, 0, 0, 1], &[0, 0, 0, 1]);
    row_gives(Op::Erode, &[7], &offsets, &[1, 1], &[1, 1]);
    row_gives(Op::Erode, &[3, 3], &offsets, &[1, 1], &[1, 1]);
}
