//! The grounds of the load in ten-thousandths, each asked of the whole frame. Sizes may be
//! any numbers, so they are multiplied as wider ones.

use super::Case;

/// The grounds that the call can meet, in checking order.
pub const GROUNDS: [i64; 4] = [11, 12, 13, 16];

/// All grounds that hold, in checking order.
pub fn holding(case: &Case) -> Vec<i64> {
    let holds = [
        bad_size(case),
        wrong_length(case),
        bad_cell(case),
        none_measured(case),
    ];
    let held = GROUNDS.into_iter().zip(holds).filter(|(_, holds)| *holds);
    held.map(|(ground, _)| ground).collect()
}

fn bad_size(case: &Case) -> bool {
    let allowed = 1..=240;
    !allowed.contains(&case.w) || !allowed.contains(&case.h)
}

fn wrong_length(case: &Case) -> bool {
    case.frame.len() as u128 != case.w as u128 * case.h as u128
}

fn bad_cell(case: &Case) -> bool {
    case.frame.iter().any(|&cell| cell > 2)
}

/// Ground 16: no cell is free or occupied. A cell above 2 is neither.
fn none_measured(case: &Case) -> bool {
    !case.frame.iter().any(|&cell| cell == 0 || cell == 1)
}
