//! (j) The documents' own frames, written out by hand: through planning, the operation
//! and the call that hands back the part. Two of document 01 are as document 02 has them.

use musqerpi_tests::frames::grid_of;
use musqerpi_tests::operations::check::Checker;
use musqerpi_tests::operations::makers::planned;
use musqerpi_tests::operations::{library, plan_list, Case, Op, OPS};

const POINT_1_0: [u32; 2] = [0x10000000, 0x20000002];

/// The frame of one row, by the shape's own plan, gives this row after so many stages.
/// The reference is asked too.
fn row(shape: &[u32], op: Op, frame: &[u8], stages: usize, wanted: &[u8]) {
    let plan = planned(shape).expect("the shape has a plan");
    let (w, grid) = (frame.len(), grid_of(frame.len(), 1));
    let case = Case::new(op, &plan, (w, 1), frame, (grid, grid));
    Checker::new(601).gives(&case, stages, wanted);
    let (mut first, mut second) = (vec![0xee; grid], vec![0xdd; grid]);
    let answer = library::operate(op, &plan, (w, 1), frame, &mut first, &mut second);
    assert_eq!(answer, stages as i64, "{case}");
    let mut image = 0;
    let length = library::part(answer, (w, 1), &first, &second, &mut image);
    let from = if image == 1 { first } else { second };
    assert_eq!(&from[..length as usize], wanted, "{case}");
}

#[test]
fn closing_by_columns_0_to_2() {
    let shape = [0x10000000, 0x20000007];
    assert_eq!(planned(&shape), Some(plan_list((0, 0), &[7])));
    row(&shape, Op::Close, &[1, 0, 1], 2, &[1, 1, 1]);
}

#[test]
fn erosion_by_columns_0_and_1() {
    let shape = [0x10000000, 0x20000003];
    assert_eq!(planned(&shape), Some(plan_list((0, 0), &[3])));
    row(&shape, Op::Erode, &[1, 1], 1, &[1, 1]);
    row(&shape, Op::Erode, &[1, 1, 0], 1, &[1, 0, 0]);
}

#[test]
fn one_point() {
    assert_eq!(planned(&POINT_1_0), Some(plan_list((1, 0), &[])));
    row(&POINT_1_0, Op::Erode, &[1, 0, 0], 0, &[0, 0, 1]);
    row(&POINT_1_0, Op::Open, &[1, 0, 0], 0, &[1, 0, 0]);
    // And what it does else: dilation moves by the point, erosion back.
    row(&POINT_1_0, Op::Dilate, &[1, 0, 0], 0, &[0, 1, 0]);
    row(&POINT_1_0, Op::Dilate, &[0, 0, 1], 0, &[0, 0, 0]);
    row(&POINT_1_0, Op::Erode, &[0, 1, 1], 0, &[1, 1, 1]);
    row(&POINT_1_0, Op::Erode, &[0, 1, 0], 0, &[1, 0, 1]);
    row(&POINT_1_0, Op::Close, &[0, 0, 1], 0, &[0, 0, 1]);
}

/// The row of four cells, anchor at its second: two stages, offset -1.
#[test]
fn the_row_of_four_cells() {
    let shape = [0x10000001, 0x2000000f];
    assert_eq!(planned(&shape), Some(plan_list((-1, 0), &[3, 5])));
    let frame = [0, 0, 1, 0, 0, 0, 1];
    row(&shape, Op::Dilate, &frame, 2, &[0, 1, 1, 1, 1, 1, 1]);
    row(&shape, Op::Close, &frame, 4, &[0, 0, 1, 1, 1, 1, 1]);
    let frame = [1, 1, 1, 1, 1, 0, 1];
    row(&shape, Op::Erode, &frame, 2, &[1, 1, 1, 0, 0, 0, 0]);
    row(&shape, Op::Open, &frame, 4, &[1, 1, 1, 1, 1, 0, 0]);
}

/// Two rows of three cells by points (0, 0) and (1, 1), anchor (0, 0).
#[test]
fn a_slant_in_two_rows() {
    let plan = plan_list((0, 0), &[17]);
    assert_eq!(
        planned(&[0x10000000, 0x20000001, 0x20010002]),
        Some(plan.clone())
    );
    let frame = [1, 1, 0, 0, 1, 0];
    let wanted = [
        (Op::Dilate, 1, [1, 1, 0, 0, 1, 1]),
        (Op::Erode, 1, [1, 0, 0, 0, 1, 0]),
        (Op::Open, 2, [1, 0, 0, 0, 1, 0]),
        (Op::Close, 2, [1, 1, 0, 0, 1, 0]),
    ];
    for (op, stages, cells) in wanted {
        let case = Case::new(op, &plan, (3, 2), &frame, (18 * 17, 18 * 17 + 4));
        Checker::new(602).gives(&case, stages, &cells);
    }
}

/// 240 columns pass and 241 give 11; place 30 passes and 31 gives 6.
#[test]
fn limits_told_by_the_document() {
    let mut checker = Checker::new(603);
    let grid = grid_of(241, 1);
    for op in OPS {
        let frame = vec![1; 241];
        let plan = plan_list((0, 0), &[3]);
        let case = |w: usize| Case::new(op, &plan, (w, 1), &frame[..w], (grid, grid));
        checker.answers(&case(240), 0);
        checker.answers(&case(241), 11);
        for (place, wanted) in [(0x1e, 0), (0x1f, 6), (0x1e00, 0), (0x1f00, 6), (0x1e1e, 0)] {
            let plan = [0x30000000, 0x40000000 | place];
            let case = Case::new(op, &plan, (2, 2), &[1, 0, 0, 1], (17 * 17, 17 * 17));
            checker.answers(&case, wanted);
        }
    }
}
