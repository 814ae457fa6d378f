//! What the single stages give in turn: the frame put into a grid of the operation's kind,
//! the grid taken through one single stage after the other, and the last grid cut to the
//! frame here. Putting and the stages are the library's or the reference's.

use super::{Case, Op};
use crate::frames::{grid_of, library, reference, Case as Step, Mode};

/// Runs putting or a single stage, from the bytes read into those written.
type Run = fn(&Step, &mut [u8]) -> i64;

/// The cells of the result by the library's calls, for a case that no ground refuses.
pub fn cells(case: &Case) -> Vec<u8> {
    let run = |step: &Step, image: &mut [u8]| library::run(step, &step.read, image);
    cut(case, &last_grid(case, run))
}

/// `cells` by the reference's grids.
pub fn cells_by_reference(case: &Case) -> Vec<u8> {
    cut(case, &last_grid(case, reference::run))
}

fn last_grid(case: &Case, run: Run) -> Vec<u8> {
    let (size, grid, around) = ((case.w, case.h), grid_of(case.w, case.h), case.op.around());
    let mut from = vec![7; grid];
    let put = Step::put(case.w, case.h, &case.frame, around, grid);
    assert_eq!(run(&put, &mut from), 0, "{case}: {put}");
    for &erode in case.op.passes() {
        for &word in &case.plan[2..] {
            let (mode, mut to) = (Mode { erode, around }, vec![8; grid]);
            let stage = Step::stage(word, mode, size, &from, grid);
            assert_eq!(run(&stage, &mut to), 0, "{case}: {stage}");
            from = to;
        }
    }
    from
}

/// Cell (x, y) is the grid's (x - dx, y - dy) for dilation, (x + dx, y + dy) for erosion
/// and (x, y) for opening and closing; outside the grid it is as plane cells there are.
fn cut(case: &Case, grid: &[u8]) -> Vec<u8> {
    let (around, start) = (case.op.around(), case.op.around().start());
    let (width, height) = (case.w as i64 + 15, case.h as i64 + 15);
    let (dx, dy) = case.offset();
    let (by_x, by_y) = match case.op {
        Op::Dilate => (-dx, -dy),
        Op::Erode => (dx, dy),
        Op::Open | Op::Close => (0, 0),
    };
    let at = |x: i64, y: i64| {
        let (column, row) = (x - start, y - start);
        let inside = (0..width).contains(&column) && (0..height).contains(&row);
        if inside {
            grid[(row * width + column) as usize]
        } else {
            around.cell()
        }
    };
    let row = |y: i64| (0..case.w as i64).map(move |x| (x, y));
    let points = (0..case.h as i64).flat_map(row);
    points.map(|(x, y)| at(x + by_x, y + by_y)).collect()
}
