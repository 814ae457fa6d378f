//! What is worked on: grids for single stages, and frames.

use super::{rust, Size};
use musqerpi_tests::frames::Mode;
use musqerpi_tests::random::Random;

/// A grid with a random frame in it: one cell in four occupied, for erosion all but one.
pub fn grid(size: Size, mode: Mode) -> Vec<u8> {
    let mut random = Random::new(2026);
    let cell = |_| u8::from(random.once_in(4) != mode.erode);
    let frame: Vec<u8> = (0..size.cells()).map(cell).collect();
    let mut grid = vec![7; size.grid()];
    rust::put(size, &frame, mode.around, &mut grid);
    grid
}

/// Cells that were not measured among the others: one in the middle, or half of them.
#[derive(Clone, Copy, PartialEq)]
pub enum Holes {
    One,
    Half,
}

impl Holes {
    pub fn name(self) -> &'static str {
        match self {
            Holes::One => "one 2",
            Holes::Half => "half 2s",
        }
    }

    /// The cells with their holes.
    pub fn into(self, cells: &[u8]) -> Vec<u8> {
        let mut random = Random::new(2029);
        let mut cells = cells.to_vec();
        match self {
            Holes::One => {
                let middle = cells.len() / 2;
                cells[middle] = 2;
            }
            Holes::Half => cells
                .iter_mut()
                .filter(|_| random.once_in(2))
                .for_each(|cell| *cell = 2),
        }
        cells
    }
}

/// A random frame in which so many of 64 cells are occupied.
pub fn scattered(size: Size, of_64: usize) -> Vec<u8> {
    let mut random = Random::new(2028);
    let cell = |_| u8::from(random.below(64) < of_64);
    (0..size.cells()).map(cell).collect()
}

/// A frame of rectangles and single cells, so that something is left by each operation.
pub fn frame(size: Size) -> Vec<u8> {
    let mut random = Random::new(2027);
    let mut cells = vec![0; size.cells()];
    // Rectangles, their least and greatest sides, and single cells.
    let (rectangles, least, greatest, flipped) = match size.w.min(size.h) {
        0..16 => (1, 4, 5, 2),
        16..100 => (6, 4, 16, 16),
        _ => (40, 1, 40, 300),
    };
    for _ in 0..rectangles {
        let left = random.below(size.w - greatest);
        let top = random.below(size.h - greatest);
        let mut side = || least + random.below(greatest - least + 1);
        let (w, h) = (side(), side());
        for y in top..top + h {
            cells[y * size.w + left..y * size.w + left + w].fill(1);
        }
    }
    for _ in 0..flipped {
        cells[random.below(size.cells())] ^= 1;
    }
    cells
}
