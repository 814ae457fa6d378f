//! An arrival in plain Rust: the moves by whole frames, and the rows near both ends by the
//! plan's points, on rows of one bit a cell. It looks at sizes, lengths and cells, and
//! takes the plan to be right.

use std::ops::Range;

/// A row of up to 240 cells, x = 0 in the lowest bit of the first word.
type Bits = [u64; 4];

const FREE: Bits = [0; 4];

/// The greatest |y| of a plan's points, whatever the plan.
const FARTHEST: usize = 15;

/// The plan's points: those of its stages from (0, 0) on, and the offset.
struct Points {
    /// The columns by row, x = 0 in the lowest bit.
    rows: [u16; 16],
    dx: i32,
    dy: i32,
}

impl Points {
    fn of(plan: &[u32]) -> Points {
        let field = |shift: u32| (plan[1] >> shift & 0xff) as i32 - 15;
        let mut rows = [0; 16];
        rows[0] = 1;
        for &stage in &plan[2..] {
            rows = plus_stage(&rows, stage);
        }
        Points {
            rows,
            dx: field(0),
            dy: field(8),
        }
    }

    /// The greatest |y|.
    fn reach(&self) -> usize {
        let last = self.rows.iter().rposition(|&row| row != 0);
        let last = self.dy + last.expect("a plan has a point") as i32;
        self.dy.abs().max(last.abs()) as usize
    }
}

/// All sums of a point and a cell of the stage.
fn plus_stage(rows: &[u16; 16], stage: u32) -> [u16; 16] {
    let mut sums = [0; 16];
    for j in 0..3 {
        let columns = stage >> (3 * j) & 7;
        for (sum, &row) in sums[j..].iter_mut().zip(rows) {
            for i in (0..3).filter(|i| columns >> i & 1 == 1) {
                *sum |= row << i;
            }
        }
    }
    sums
}

fn join(bits: &mut Bits, others: &Bits) {
    for (word, other) in bits.iter_mut().zip(others) {
        *word |= other;
    }
}

/// The row moved by x, which is -15 to 15. What leaves the four words is lost.
fn moved(bits: &Bits, x: i32) -> Bits {
    let mut to = FREE;
    for i in 0..4 {
        to[i] = if x >= 0 {
            let below = if i > 0 { bits[i - 1] } else { 0 };
            bits[i] << x | below >> 1 >> (63 - x)
        } else {
            let above = if i < 3 { bits[i + 1] } else { 0 };
            bits[i] >> -x | above << 1 << (63 + x)
        };
    }
    to
}

/// The row moved by each x from 0 on, so many of them, joined. They double at each step.
fn spread(bits: &Bits, count: i32) -> Bits {
    let (mut all, mut done) = (*bits, 1);
    while done < count {
        let step = done.min(count - done);
        let more = moved(&all, step);
        join(&mut all, &more);
        done += step;
    }
    all
}

/// The row moved by dx and each of these columns, joined: one run of columns at a time.
fn by_columns(bits: &Bits, columns: u16, dx: i32) -> Bits {
    let (mut all, mut left, mut x) = (FREE, columns, dx);
    while left != 0 {
        let free = left.trailing_zeros();
        let run = (left >> free).trailing_ones();
        x += free as i32;
        join(&mut all, &moved(&spread(bits, run as i32), x));
        x += run as i32;
        left = left.checked_shr(free + run).unwrap_or(0);
    }
    all
}

/// A row of the dilation, from the rows around it, from so many above to so many below.
/// Rows that are moved by the same columns are joined before.
fn dilated(points: &Points, around: &[Bits]) -> Bits {
    let (rows, middle) = (&points.rows, (around.len() / 2) as i32);
    let mut all = FREE;
    for (y, &columns) in rows.iter().enumerate() {
        if columns == 0 || rows[..y].contains(&columns) {
            continue;
        }
        let mut joined = FREE;
        for (y, _) in rows.iter().enumerate().filter(|(_, &row)| row == columns) {
            let place = middle - points.dy - y as i32;
            join(&mut joined, &around[place as usize]);
        }
        join(&mut all, &by_columns(&joined, columns, points.dx));
    }
    all
}

/// Eight cells, or fewer with free ones after them.
fn eight(cells: &[u8]) -> u64 {
    let padded = |_| {
        let mut bytes = [0; 8];
        bytes[..cells.len()].copy_from_slice(cells);
        bytes
    };
    u64::from_le_bytes(cells.try_into().unwrap_or_else(padded))
}

/// Eight cells at a time: the product has them side by side in its highest byte.
fn pack(cells: &[u8]) -> Bits {
    let mut bits = FREE;
    for (k, cells) in cells.chunks(8).enumerate() {
        let packed = eight(cells).wrapping_mul(0x0102_0408_1020_4080) >> 56;
        bits[k / 8] |= packed << (k % 8 * 8);
    }
    bits
}

/// Eight cells at a time: of eight bytes that are all the same, byte i keeps bit i, and
/// becomes 1 if that is set.
fn unpack(bits: &Bits, cells: &mut [u8]) {
    for (k, cells) in cells.chunks_mut(8).enumerate() {
        let byte = bits[k / 8] >> (k % 8 * 8) & 0xff;
        let one_each = byte.wrapping_mul(0x0101_0101_0101_0101) & 0x8040_2010_0804_0201;
        let highest = one_each + 0x7f7f_7f7f_7f7f_7f7f;
        let bytes = (highest >> 7 & 0x0101_0101_0101_0101).to_le_bytes();
        match <&mut [u8; 8]>::try_from(&mut *cells) {
            Ok(all) => *all = bytes,
            Err(_) => cells.copy_from_slice(&bytes[..cells.len()]),
        }
    }
}

/// Works out these rows of the kept frame, 16 at most, from the live one.
fn work_out(points: &Points, rows: Range<usize>, w: usize, live: &[u8], kept: &mut [u8]) {
    let reach = points.reach();
    // The live rows from so far above the first to so far below the last.
    let mut packed = [FREE; 3 * FARTHEST + 1];
    for (k, bits) in packed[..rows.len() + 2 * reach].iter_mut().enumerate() {
        let place = (rows.start + k).checked_sub(reach);
        if let Some(cells) = place.and_then(|y| live.get(y * w..(y + 1) * w)) {
            *bits = pack(cells);
        }
    }
    let kept = kept[rows.start * w..rows.end * w].chunks_mut(w);
    for (cells, around) in kept.zip(packed.windows(2 * reach + 1)) {
        unpack(&dilated(points, around), cells);
    }
}

/// Some cell is above 1. It looks at 64 cells at a time: with a short loop its time was up to
/// a fifth apart from one build to the next.
#[inline(never)]
pub fn is_bad(cells: &[u8]) -> bool {
    let mut all = [0; 64];
    let (chunks, rest) = cells.as_chunks::<64>();
    for chunk in chunks {
        for (all, cell) in all.iter_mut().zip(chunk) {
            *all |= cell;
        }
    }
    all.iter().chain(rest).fold(0, |all, cell| all | cell) > 1
}

fn ground(size: (usize, usize), row: &[u8], live: &[u8], kept: &[u8]) -> Option<i64> {
    let ((w, h), sides) = (size, 1..=240);
    if !sides.contains(&w) || !sides.contains(&h) {
        Some(11)
    } else if live.len() != w * h || kept.len() != w * h {
        Some(12)
    } else if row.len() != w {
        Some(15)
    } else if is_bad(live) || is_bad(kept) || is_bad(row) {
        Some(13)
    } else {
        None
    }
}

/// A row arrives, as with `musq_arrive`.
pub fn arrive(
    plan: &[u32],
    (w, h): (usize, usize),
    row: &[u8],
    live: &mut [u8],
    kept: &mut [u8],
) -> i64 {
    if let Some(ground) = ground((w, h), row, live, kept) {
        return -ground;
    }
    live.copy_within(w.., 0);
    live[(h - 1) * w..].copy_from_slice(row);
    kept.copy_within(w.., 0);
    let points = Points::of(plan);
    let near = (points.reach() + 1).min(h);
    work_out(&points, 0..near, w, live, kept);
    work_out(&points, near.max(h - near)..h, w, live, kept);
    0
}
