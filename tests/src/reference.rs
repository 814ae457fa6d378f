//! The independent implementation, from the words of document 01: lists are
//! turned into sets of points, and each ground is a question of its own.

use crate::cases::{Call, Case};

pub mod grounds;
pub mod plans;
pub mod points;
mod sets;
pub mod sums;

use grounds::{first, PLAN, SHAPE};
use plans::{shortest, to_plan_list};
use points::{excess, joined, moved, of_plan, of_shape, summed, to_list, Point};

/// The points of the result, a shape or a plan, or the first ground from 1 to 7
/// that holds. Each ground is tried over both lists before the next.
pub fn result_points(
    call: Call,
    a: &[u32],
    b: &[u32],
    offset: (i32, i32),
) -> Result<Vec<Point>, i64> {
    let ground = match call {
        Call::ShapeOfPlan => first(&PLAN, &[a]),
        Call::Move | Call::Plan => first(&SHAPE, &[a]),
        Call::Join | Call::Sum => first(&SHAPE, &[a, b]),
    };
    match ground {
        Some(number) => Err(number),
        None => Ok(points_made(call, a, b, offset)),
    }
}

/// The points that the call makes of its lists, whatever grounds from 4 to 7 hold.
fn points_made(call: Call, a: &[u32], b: &[u32], offset: (i32, i32)) -> Vec<Point> {
    match call {
        Call::ShapeOfPlan => of_plan(a),
        Call::Move => moved(&of_shape(a), (offset.0.into(), offset.1.into())),
        Call::Join => joined(&of_shape(a), &of_shape(b)),
        Call::Sum => summed(&of_shape(a), &of_shape(b)),
        Call::Plan => of_shape(a),
    }
}

fn out_of_range(points: &[Point]) -> bool {
    excess(points).iter().any(|&over| over > 0)
}

/// Ground 9: 32 words for a plan, 17 for a shape.
fn too_short(call: Call, out_n: usize) -> bool {
    match call {
        Call::Plan => out_n < 32,
        _ => out_n < 17,
    }
}

/// Grounds 8 to 10, then the list: what the call answers and writes.
pub fn finish(call: Call, points: &Result<Vec<Point>, i64>, out: &mut [u32]) -> i64 {
    let made = match points {
        Err(number) => Err(*number),
        // A shape's own points are never out of range, and planning doesn't ask.
        Ok(points) if call != Call::Plan && out_of_range(points) => Err(8),
        Ok(_) if too_short(call, out.len()) => Err(9),
        Ok(points) if call == Call::Plan => match shortest(points) {
            None => Err(10),
            Some(masks) => Ok(to_plan_list(points, &masks)),
        },
        Ok(points) => Ok(to_list(points)),
    };
    match made {
        Err(number) => -number,
        Ok(list) => {
            out[..list.len()].copy_from_slice(&list);
            list.len() as i64
        }
    }
}

/// The whole call.
pub fn run(call: Call, a: &[u32], b: &[u32], offset: (i32, i32), out: &mut [u32]) -> i64 {
    finish(call, &result_points(call, a, b, offset), out)
}

/// All grounds that hold, ground N as bit N, each tried by itself. Ground 8 is
/// left out where 1, 2 or 3 holds or the points are none, ground 10 where one of
/// 1 to 4 holds. Points made already are given, to save the work.
pub fn holding(case: &Case, made: Option<&[Point]>) -> u32 {
    let table: &[grounds::Ground] = match case.call {
        Call::ShapeOfPlan => &PLAN,
        _ => &SHAPE,
    };
    let mut held = 0;
    for (number, holds) in table {
        if case.lists().iter().any(|list| holds(list)) {
            held |= 1 << number;
        }
    }
    if too_short(case.call, case.out_n) {
        held |= 1 << 9;
    }
    if case.call == Call::Plan {
        let none = made.is_some_and(|points| shortest(points).is_none());
        return held | u32::from(none) << 10;
    }
    let far = match made {
        Some(points) => out_of_range(points),
        None if held & 0b1110 != 0 => false,
        None => {
            let points = points_made(case.call, &case.a, &case.b, (case.dx, case.dy));
            !points.is_empty() && out_of_range(&points)
        }
    };
    held | u32::from(far) << 8
}
