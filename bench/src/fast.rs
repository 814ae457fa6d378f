//! The calls as a careful Rust programmer would write them for speed: rows as
//! [u16; 16], bit operations, no allocation. Planning is the port of the library's
//! search, and no quicker way to search.

use crate::quick::Quick;
use crate::rows::Rows;
use crate::search::End;
use musqerpi_tests::cases::Call;

mod read;

use read::{read_plan, read_shape};

/// Where a shape's cells stand: least column and row in the window, least x and
/// y of the points, extents.
#[derive(Clone, Copy)]
pub struct Bounds {
    left: u32,
    top: u32,
    x: i32,
    y: i32,
    w: i32,
    h: i32,
}

/// The call on these lists, as the library answers it.
pub fn run(call: Call, a: &[u32], b: &[u32], offset: (i32, i32), out: &mut [u32]) -> i64 {
    match call {
        Call::ShapeOfPlan => shape_of_plan(a, out),
        Call::Move => move_shape(a, offset.0, offset.1, out),
        Call::Join => join(a, b, out),
        Call::Sum => sum(a, b, out),
        Call::Plan => plan(a, out),
    }
}

/// Grounds 8 and 9, from the corner and the extents alone.
#[inline]
fn ground(x: i32, y: i32, w: i32, h: i32, out_n: usize) -> i64 {
    let wide = w > 15 || h > 15;
    if wide || x < -15 || y < -15 || x + w > 15 || y + h > 15 {
        8
    } else if out_n < 17 {
        9
    } else {
        0
    }
}

/// Writes the list with the least anchor; the points are in range.
#[inline]
fn write(rows: &[u16; 16], x: i32, y: i32, h: i32, out: &mut [u32]) -> i64 {
    let (ax, ay) = ((-x).max(0) as u32, (-y).max(0) as u32);
    let (shift, mut head) = (x.max(0) as u32, 0x2000_0000 | (y.max(0) as u32) << 16);
    let out = &mut out[..17];
    out[0] = 0x1000_0000 | ay << 4 | ax;
    let mut n = 1;
    for &row in &rows[..=(h & 15) as usize] {
        if row != 0 {
            out[n] = head | u32::from(row) << shift;
            n += 1;
        }
        head += 0x1_0000;
    }
    n as i64
}

/// Only the extents are needed for grounds 1 to 8; the rows are summed after.
pub fn shape_of_plan(plan: &[u32], out: &mut [u32]) -> i64 {
    let (x, y, w, h) = match read_plan(plan) {
        Ok(box_of_points) => box_of_points,
        Err(number) => return -number,
    };
    let refused = ground(x, y, w, h, out.len());
    if refused != 0 {
        return -refused;
    }
    let mut rows = [0u16; 16];
    rows[0] = 1;
    for stage in &plan[2..] {
        rows = add_stage(&rows, stage & 0x1ff);
    }
    write(&rows, x, y, h, out)
}

/// The sum of rows and a mask: each row of the mask is three shifts.
#[inline]
fn add_stage(rows: &[u16; 16], mask: u32) -> [u16; 16] {
    let mut sum = [0u16; 16];
    for j in 0..3 {
        let cells = (mask >> (3 * j)) as u16;
        let all_if = |i: u16| (cells >> i & 1).wrapping_neg();
        let (one, two, three) = (all_if(0), all_if(1), all_if(2));
        for y in j..16 {
            let row = rows[y - j];
            sum[y] |= (row & one) | ((row << 1) & two) | ((row << 2) & three);
        }
    }
    sum
}

/// A move changes y and shift of each row word alike; no rows are gathered.
pub fn move_shape(list: &[u32], dx: i32, dy: i32, out: &mut [u32]) -> i64 {
    let shape = match read_shape(list) {
        Ok(shape) => shape,
        Err(number) => return -number,
    };
    // Offsets past 64 are out of range for any shape; 64 stands for them all.
    let (x, y) = (shape.x + dx.clamp(-64, 64), shape.y + dy.clamp(-64, 64));
    let refused = ground(x, y, shape.w, shape.h, out.len());
    if refused != 0 {
        return -refused;
    }
    let (right, down) = (x.max(0) as u32, y.max(0) as u32);
    out[0] = 0x1000_0000 | ((-y).max(0) as u32) << 4 | (-x).max(0) as u32;
    for (to, row) in out[1..].iter_mut().zip(&list[1..]) {
        let y = (row >> 16 & 15) - shape.top + down;
        *to = 0x2000_0000 | y << 16 | (row & 0xffff) >> shape.left << right;
    }
    list.len() as i64
}

/// Both lists, each ground tried over both before the next.
#[inline]
fn read_two(a: &[u32], b: &[u32]) -> Result<(Bounds, Bounds), i64> {
    match (read_shape(a), read_shape(b)) {
        (Ok(a), Ok(b)) => Ok((a, b)),
        (Err(one), Err(two)) => Err(one.min(two)),
        (Err(number), _) | (_, Err(number)) => Err(number),
    }
}

/// Adds a list's cells to the rows, its least cell at column `right`, row `down`.
#[inline]
fn gather(list: &[u32], from: &Bounds, right: u32, down: u32, rows: &mut [u16; 16]) {
    for row in &list[1..] {
        let y = (row >> 16 & 15) - from.top + down;
        rows[(y & 15) as usize] |= (*row as u16) >> from.left << right;
    }
}

pub fn join(a: &[u32], b: &[u32], out: &mut [u32]) -> i64 {
    let (first, second) = match read_two(a, b) {
        Ok(shapes) => shapes,
        Err(number) => return -number,
    };
    let (x, y) = (first.x.min(second.x), first.y.min(second.y));
    let w = (first.x + first.w).max(second.x + second.w) - x;
    let h = (first.y + first.h).max(second.y + second.h) - y;
    let refused = ground(x, y, w, h, out.len());
    if refused != 0 {
        return -refused;
    }
    let mut rows = [0u16; 16];
    gather(
        a,
        &first,
        (first.x - x) as u32,
        (first.y - y) as u32,
        &mut rows,
    );
    gather(
        b,
        &second,
        (second.x - x) as u32,
        (second.y - y) as u32,
        &mut rows,
    );
    write(&rows, x, y, h, out)
}

pub fn sum(a: &[u32], b: &[u32], out: &mut [u32]) -> i64 {
    let (first, second) = match read_two(a, b) {
        Ok(shapes) => shapes,
        Err(number) => return -number,
    };
    let (x, y) = (first.x + second.x, first.y + second.y);
    let (w, h) = (first.w + second.w, first.h + second.h);
    let refused = ground(x, y, w, h, out.len());
    if refused != 0 {
        return -refused;
    }
    let rows = match a.len() <= b.len() {
        true => sum_of_rows(a, &first, b, &second),
        false => sum_of_rows(b, &second, a, &first),
    };
    write(&rows, x, y, h, out)
}

/// The sum in normal position; the list with fewer rows is gone through cell by cell.
#[inline]
fn sum_of_rows(few: &[u32], few_at: &Bounds, many: &[u32], many_at: &Bounds) -> [u16; 16] {
    let mut rows = [0u16; 16];
    gather(many, many_at, 0, 0, &mut rows);
    // Twice the height, so that every loop over rows has a fixed length.
    let mut sum = [0u16; 32];
    for row in &few[1..] {
        let down = ((row >> 16).wrapping_sub(few_at.top) & 15) as usize;
        let moved = sum_with_row(&rows, (*row as u16) >> few_at.left);
        for (to, row) in sum[down..down + 16].iter_mut().zip(moved) {
            *to |= row;
        }
    }
    let mut kept = [0u16; 16];
    kept.copy_from_slice(&sum[..16]);
    kept
}

/// The sum of rows and one row of cells.
#[inline]
fn sum_with_row(rows: &[u16; 16], mut cells: u16) -> [u16; 16] {
    let mut sum = [0u16; 16];
    while cells != 0 {
        let right = cells.trailing_zeros();
        for (to, row) in sum.iter_mut().zip(rows) {
            *to |= row << right;
        }
        cells &= cells - 1;
    }
    sum
}

/// The cells of a valid shape list, where they stand in the window.
pub fn rows_of(list: &[u32]) -> Rows {
    let mut rows = [0; 16];
    for row in &list[1..] {
        rows[(row >> 16 & 15) as usize] = *row as u16;
    }
    rows
}

/// Grounds 1 to 4, 9 and 10; the search has no limit.
pub fn plan(list: &[u32], out: &mut [u32]) -> i64 {
    let shape = match read_shape(list) {
        Ok(shape) => shape,
        Err(number) => return -number,
    };
    if out.len() < 32 {
        return -9;
    }
    let mut search = Quick::new(&rows_of(list), u64::MAX);
    let End::Plan(n) = search.run() else {
        return -10;
    };
    let (dx, dy) = ((shape.x + 15) as u32, (shape.y + 15) as u32);
    out[0] = 0x3000_0000 | n as u32;
    out[1] = 0x4000_0000 | dy << 8 | dx;
    for (to, mask) in out[2..].iter_mut().zip(&search.path[..n]) {
        *to = 0x5000_0000 | u32::from(*mask);
    }
    n as i64 + 2
}
