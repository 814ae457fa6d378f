//! In plain Rust: putting a frame, its load, and stages by a flat loop over bytes for each
//! cell of a mask, and by a kernel's points directly, row by row.

use super::kernel::Kernel;
use super::Size;
use musqerpi_tests::frames::{Around, Mode};
use std::hint::black_box;

/// Cells that are gone through by one bit of the mask after the other, to stay in cache.
const CHUNK: usize = 4096;

/// Fills the grid with 0, or with 1 in the second kind, and then copies the frame row by
/// row. Like the library it isn't told size and kind when it is compiled.
pub fn put(size: Size, frame: &[u8], around: Around, grid: &mut [u8]) {
    put_among(size, frame, around, around.cell(), grid);
}

/// The same with this value around the frame.
pub fn put_among(size: Size, frame: &[u8], around: Around, cell: u8, grid: &mut [u8]) {
    let (w, width) = black_box((size.w, size.width()));
    let (first, cell) = black_box((size.first(around), cell));
    grid.fill(cell);
    for (to, from) in grid[first..].chunks_mut(width).zip(frame.chunks(w)) {
        to[..w].copy_from_slice(from);
    }
}

/// The occupied cells, in chunks of 255, each counted in a byte.
pub fn chunks(frame: &[u8]) -> i64 {
    let occupied = |chunk: &[u8]| -> u8 { chunk.iter().map(|&cell| u8::from(cell == 1)).sum() };
    frame.chunks(255).map(occupied).map(i64::from).sum()
}

/// The occupied cells, one after the other.
pub fn filter(frame: &[u8]) -> i64 {
    frame.iter().filter(|&&cell| cell == 1).count() as i64
}

/// For each cell of the mask one flat loop over the grid's bytes, in chunks; then the two
/// columns that took cells of a neighbouring row are done again.
pub fn bytes(mask: u32, mode: Mode, width: usize, from: &[u8], to: &mut [u8]) {
    match mode.around {
        Around::Free => bytes_among::<0>(mask, mode.erode, width, from, to),
        Around::Occupied => bytes_among::<1>(mask, mode.erode, width, from, to),
    }
}

/// `bytes` with cells outside the grid of this value. It is told when this is compiled:
/// given as an argument it takes some hundredths of the time, in the two columns.
fn bytes_among<const OUTSIDE: u8>(
    mask: u32,
    erode: bool,
    width: usize,
    from: &[u8],
    to: &mut [u8],
) {
    for (chunk, cells) in to.chunks_mut(CHUNK).enumerate() {
        let start = chunk * CHUNK;
        for bit in (0..9).filter(|bit| mask >> bit & 1 == 1) {
            let (far, first) = (bit / 3 * width + bit % 3, mask & ((1 << bit) - 1) == 0);
            let ahead = || from.get(start + far..).unwrap_or(&[]);
            match (erode, first) {
                (true, true) => copy_ahead(cells, ahead(), OUTSIDE),
                (true, false) => least_ahead(cells, ahead(), OUTSIDE),
                (false, _) => behind::<OUTSIDE>(cells, from, start, far, first),
            }
        }
    }
    let columns = if erode {
        [width - 2, width - 1]
    } else {
        [0, 1]
    };
    for column in columns {
        for place in (column..to.len()).step_by(width) {
            to[place] = cell::<OUTSIDE>(mask, erode, width, from, place);
        }
    }
}

/// The least of each cell and the one that stands so far ahead; past the end are cells
/// outside.
fn least_ahead(cells: &mut [u8], ahead: &[u8], outside: u8) {
    let there = cells.len().min(ahead.len());
    let (within, past) = cells.split_at_mut(there);
    for (cell, &other) in within.iter_mut().zip(ahead) {
        *cell = (*cell).min(other);
    }
    if outside == 0 {
        past.fill(0);
    }
}

/// The cells that stand so far ahead; past the end are cells outside.
fn copy_ahead(cells: &mut [u8], ahead: &[u8], outside: u8) {
    let there = cells.len().min(ahead.len());
    let (within, past) = cells.split_at_mut(there);
    within.copy_from_slice(&ahead[..there]);
    past.fill(outside);
}

/// The cells that stand so far behind, or the greatest of these and the cells there
/// are, the first of which has this place; before the start are cells outside.
fn behind<const OUTSIDE: u8>(cells: &mut [u8], from: &[u8], start: usize, far: usize, first: bool) {
    let before = far.saturating_sub(start).min(cells.len());
    let others = &from[(start + before).saturating_sub(far)..];
    let (out, within) = cells.split_at_mut(before);
    if first || OUTSIDE == 1 {
        out.fill(OUTSIDE);
    }
    if first {
        within.copy_from_slice(&others[..within.len()]);
    } else {
        greatest(within, others);
    }
}

/// The greatest of each cell and another.
fn greatest(cells: &mut [u8], others: &[u8]) {
    for (cell, &other) in cells.iter_mut().zip(others) {
        *cell = (*cell).max(other);
    }
}

/// One cell of the result, by looking at all cells of the mask.
fn cell<const OUTSIDE: u8>(mask: u32, erode: bool, width: usize, from: &[u8], place: usize) -> u8 {
    let (x, y, height) = (place % width, place / width, from.len() / width);
    let mut value = u8::from(erode);
    for bit in (0..9).filter(|bit| mask >> bit & 1 == 1) {
        let (i, j) = (bit % 3, bit / 3);
        if erode {
            let inside = x + i < width && y + j < height;
            value = value.min(if inside {
                from[place + j * width + i]
            } else {
                OUTSIDE
            });
        } else {
            let inside = i <= x && j <= y;
            value = value.max(if inside {
                from[place - j * width - i]
            } else {
                OUTSIDE
            });
        }
    }
    value
}

/// The kernel's points one after the other, each row by row: the greatest or least.
pub fn direct(kernel: &Kernel, mode: Mode, width: usize, from: &[u8], to: &mut [u8]) {
    let (height, outside) = (to.len() / width, mode.around.cell());
    to.fill(u8::from(mode.erode));
    for &(i, j) in &kernel.points {
        if mode.erode {
            for (y, row) in to.chunks_mut(width).enumerate() {
                let ahead = match y + j < height {
                    true => &from[(y + j) * width + i..(y + j + 1) * width],
                    false => &[],
                };
                least_ahead(row, ahead, outside);
            }
        } else {
            if outside == 1 {
                to[..j * width].fill(1);
                to.chunks_mut(width).for_each(|row| row[..i].fill(1));
            }
            for y in j..height {
                let row = &mut to[y * width + i..(y + 1) * width];
                greatest(row, &from[(y - j) * width..]);
            }
        }
    }
}
