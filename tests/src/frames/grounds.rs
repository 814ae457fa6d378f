//! The grounds of the three calls: each is asked of a whole frame or image, and stands
//! by itself; the kind of grid has no say in them. Sizes may be any numbers, so they are
//! multiplied as wider ones.

use super::{Call, Case};
use crate::reference::grounds::is_stage;

/// A ground's number and the question whether it holds for a case.
type Ground = (i64, fn(&Case) -> bool);

const LOAD: [Ground; 3] = [(11, bad_size), (12, wrong_length), (13, bad_frame_cell)];

const PUT: [Ground; 4] = [
    (11, bad_size),
    (12, wrong_length),
    (13, bad_frame_cell),
    (14, short_written),
];

const STAGE: [Ground; 6] = [
    (2, wrong_kind),
    (3, extra_bit),
    (7, no_stage),
    (11, bad_size),
    (13, bad_grid_cell),
    (14, short_image),
];

/// All grounds that hold, in checking order.
pub fn holding(case: &Case) -> Vec<i64> {
    let table: &[Ground] = match case.call {
        Call::Load => &LOAD,
        Call::Put { .. } => &PUT,
        Call::Stage { .. } => &STAGE,
    };
    let held = table.iter().filter(|(_, holds)| holds(case));
    held.map(|(number, _)| *number).collect()
}

/// The word of a single stage; the other calls have none.
fn word(case: &Case) -> u32 {
    match case.call {
        Call::Stage { word, .. } => word,
        _ => panic!("{case} has no stage"),
    }
}

/// Ground 2: the place calls for a stage.
fn wrong_kind(case: &Case) -> bool {
    word(case) >> 28 != 5
}

/// Ground 3: a stage names bits 0 to 8, and the kind is above bit 27.
fn extra_bit(case: &Case) -> bool {
    (9..28).any(|bit| word(case) >> bit & 1 == 1)
}

/// Ground 7; there is no mask before.
fn no_stage(case: &Case) -> bool {
    !is_stage(word(case) & 0x1ff)
}

fn bad_size(case: &Case) -> bool {
    let allowed = 1..=240;
    !allowed.contains(&case.w) || !allowed.contains(&case.h)
}

fn wrong_length(case: &Case) -> bool {
    case.read.len() as u128 != case.w as u128 * case.h as u128
}

fn bad_frame_cell(case: &Case) -> bool {
    case.read.iter().any(|&cell| cell > 2)
}

/// Bytes of the grid, or the greatest number if they are more.
fn grid(case: &Case) -> u128 {
    (case.w as u128 + 15).saturating_mul(case.h as u128 + 15)
}

/// Ground 13 over the bytes of the grid that the image read has; no byte past the grid.
fn bad_grid_cell(case: &Case) -> bool {
    let in_grid = |place: usize| (place as u128) < grid(case);
    let mut cells = case.read.iter().enumerate();
    cells.any(|(place, &cell)| in_grid(place) && cell > 2)
}

fn short_written(case: &Case) -> bool {
    (case.write_n as u128) < grid(case)
}

/// Ground 14 over both images.
fn short_image(case: &Case) -> bool {
    (case.read.len() as u128) < grid(case) || short_written(case)
}
