//! The grounds of the four operations, each asked of the whole plan list, frame or pair
//! of images. Sizes may be any numbers, so they are multiplied as wider ones.

use super::Case;
use crate::reference::grounds::PLAN;
use crate::reference::points::{excess, of_plan};

/// The grounds that an operation can meet, in checking order.
pub const GROUNDS: [usize; 11] = [1, 2, 3, 5, 6, 7, 8, 11, 12, 13, 14];

/// A ground's number and the question whether it holds for a case.
type Ground = (usize, fn(&Case) -> bool);

const FRAME: [Ground; 4] = [
    (11, bad_size),
    (12, wrong_length),
    (13, bad_cell),
    (14, short_image),
];

/// All grounds that hold, in checking order.
pub fn holding(case: &Case) -> Vec<usize> {
    let mut held = of_plan_list(&case.plan);
    let of_frame = FRAME.iter().filter(|(_, holds)| holds(case));
    held.extend(of_frame.map(|(number, _)| number));
    held
}

/// The grounds that hold for a plan list, in checking order. Ground 8 is left out where
/// 1, 2 or 3 holds or the points are none.
pub fn of_plan_list(plan: &[u32]) -> Vec<usize> {
    let of_list = PLAN.iter().filter(|(_, holds)| holds(plan));
    let mut held: Vec<usize> = of_list.map(|(number, _)| *number as usize).collect();
    let unread = held.iter().any(|&number| number <= 3);
    if !unread && out_of_range(plan) {
        held.push(8);
    }
    held
}

/// Ground 8 of a list that has head and place.
fn out_of_range(plan: &[u32]) -> bool {
    let points = of_plan(plan);
    !points.is_empty() && excess(&points).iter().any(|&over| over > 0)
}

pub fn bad_size(case: &Case) -> bool {
    let allowed = 1..=240;
    !allowed.contains(&case.w) || !allowed.contains(&case.h)
}

fn wrong_length(case: &Case) -> bool {
    case.frame.len() as u128 != case.w as u128 * case.h as u128
}

fn bad_cell(case: &Case) -> bool {
    case.frame.iter().any(|&cell| cell > 2)
}

/// Ground 14 over both images; the grid's bytes, or the greatest number if they are more.
fn short_image(case: &Case) -> bool {
    let grid = (case.w as u128 + 15).saturating_mul(case.h as u128 + 15);
    (case.first_n as u128) < grid || (case.second_n as u128) < grid
}
