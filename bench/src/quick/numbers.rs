//! The eighteen numbers of a set of cells, which add under sums, and the faces.

use crate::rows::{is_stage, Rows};

/// At i < 16 the length of the hull's edge in direction i, then w and h.
pub type Numbers = [u8; 18];

/// Places of w and h.
pub const W: usize = 16;
pub const H: usize = 17;

/// In angular order; those with an even place are axes and diagonals.
const DIRECTIONS: [(i32, i32); 16] = [
    (1, 0),
    (2, 1),
    (1, 1),
    (1, 2),
    (0, 1),
    (-1, 2),
    (-1, 1),
    (-2, 1),
    (-1, 0),
    (-2, -1),
    (-1, -1),
    (-1, -2),
    (0, -1),
    (1, -2),
    (1, -1),
    (2, -1),
];

/// A direction so many times is the sum of its two neighbours.
const TIMES: [i32; 4] = [4, 1, 3, 1];

/// The numbers of every stage; 0 where a mask is none.
pub static OF_MASK: [Numbers; 512] = of_masks();

const fn of_masks() -> [Numbers; 512] {
    let mut table = [[0; 18]; 512];
    let mut mask = 0;
    while mask < 512 {
        if is_stage(mask as u16) {
            let mut rows = [0; 16];
            rows[0] = mask as u16 & 7;
            rows[1] = mask as u16 >> 3 & 7;
            rows[2] = mask as u16 >> 6;
            table[mask] = numbers(&rows);
        }
        mask += 1;
    }
    table
}

/// The greatest value of a direction over cells that aren't none.
const fn support(rows: &Rows, (a, b): (i32, i32)) -> i32 {
    let mut greatest = i32::MIN;
    let mut y = 0;
    while y < 16 {
        let row = rows[y];
        if row != 0 {
            let x = if a > 0 {
                15 - row.leading_zeros()
            } else {
                row.trailing_zeros()
            };
            let value = a * x as i32 + b * y as i32;
            if value > greatest {
                greatest = value;
            }
        }
        y += 1;
    }
    greatest
}

/// None is below 0: what the neighbours add up to is never less than the direction gives.
pub const fn numbers(rows: &Rows) -> Numbers {
    let mut greatest = [0; 16];
    let mut i = 0;
    while i < 16 {
        greatest[i] = support(rows, DIRECTIONS[i]);
        i += 1;
    }
    let mut all = [0; 18];
    i = 0;
    while i < 16 {
        let beside = greatest[(i + 15) % 16] + greatest[(i + 1) % 16];
        all[i] = (beside - TIMES[i % 4] * greatest[i]) as u8;
        i += 1;
    }
    all[W] = (greatest[0] + greatest[8]) as u8;
    all[H] = (greatest[4] + greatest[12]) as u8;
    all
}

/// Every number of a stage is at most what is needed.
#[inline]
pub fn fit(numbers: &Numbers, need: &Numbers) -> bool {
    let pairs = numbers.iter().zip(need);
    pairs.fold(true, |all, (number, need)| all & (number <= need))
}

#[inline]
pub fn less(need: &Numbers, numbers: &Numbers) -> Numbers {
    let mut left = *need;
    for (left, number) in left.iter_mut().zip(numbers) {
        *left = left.wrapping_sub(*number);
    }
    left
}

/// Rule F. A face of a sum is the sum of the faces, so each is a full run of its line or,
/// for axes and diagonals, every second point of it.
pub fn faces(rows: &Rows) -> bool {
    (0..16).all(|i| {
        let (full, every_second) = steps(rows, DIRECTIONS[i]);
        full || (i % 2 == 0 && every_second)
    })
}

/// Of the face in a direction: all steps along its line are 1, all are 2.
fn steps(rows: &Rows, (a, b): (i32, i32)) -> (bool, bool) {
    let greatest = support(rows, (a, b));
    if a == 0 {
        let row = rows[(greatest * b) as usize];
        let row = row >> row.trailing_zeros();
        let low = u16::MAX >> row.leading_zeros();
        return (row == low, row == low & 0x5555);
    }
    let (mut full, mut every_second, mut before) = (true, true, None);
    for y in 0..16 {
        let x = (greatest - b * y) / a;
        let there = (0..16).contains(&x) && a * x + b * y == greatest;
        if there && rows[y as usize] >> x & 1 == 1 {
            if let Some(before) = before {
                let step = (y - before) / a.abs();
                full &= step == 1;
                every_second &= step == 2;
            }
            before = Some(y);
        }
    }
    (full, every_second)
}
