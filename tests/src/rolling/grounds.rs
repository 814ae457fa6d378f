//! The grounds of an arrival, each asked of the whole plan list, of both frames or of all
//! the cells given. Sizes may be any numbers, so they are multiplied as wider ones.

use super::Case;
use crate::operations::grounds::of_plan_list;

/// The grounds that an arrival can meet, in checking order: 15 is tried after 12.
pub const GROUNDS: [usize; 11] = [1, 2, 3, 5, 6, 7, 8, 11, 12, 15, 13];

/// A ground's number and the question whether it holds for a case.
type Ground = (usize, fn(&Case) -> bool);

const FRAMES: [Ground; 4] = [
    (11, bad_size),
    (12, wrong_length),
    (15, wrong_row),
    (13, bad_cell),
];

/// All grounds that hold, in checking order. Nothing is said of 8 where one of 1 to 3 holds.
pub fn holding(case: &Case) -> Vec<usize> {
    let mut held = of_plan_list(&case.plan);
    let of_frames = FRAMES.iter().filter(|(_, holds)| holds(case));
    held.extend(of_frames.map(|(number, _)| number));
    held
}

fn bad_size(case: &Case) -> bool {
    let allowed = 1..=240;
    !allowed.contains(&case.w) || !allowed.contains(&case.h)
}

/// Ground 12 over both frames.
fn wrong_length(case: &Case) -> bool {
    let cells = case.w as u128 * case.h as u128;
    let frames = [&case.live, &case.kept];
    frames.iter().any(|frame| frame.len() as u128 != cells)
}

/// Ground 15: the arriving row isn't W cells long.
fn wrong_row(case: &Case) -> bool {
    case.row.len() != case.w
}

/// Ground 13 over both frames and the row.
fn bad_cell(case: &Case) -> bool {
    let all = [&case.live, &case.kept, &case.row];
    all.iter().any(|cells| cells.iter().any(|&cell| cell > 2))
}
