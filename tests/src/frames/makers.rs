//! Makers of random frames and grids.

use super::{grid_of, stage_word, Case, AROUND, MODES};
use crate::random::Random;
use crate::reference::grounds::is_stage;

/// The 399 masks that are stages.
pub fn stages() -> Vec<u32> {
    (0..512).filter(|&mask| is_stage(mask)).collect()
}

/// Every size of so many cells.
pub fn sizes_of(cells: usize) -> Vec<(usize, usize)> {
    let widths = (1..=cells).filter(|w| w * (cells / w) == cells);
    widths.map(|w| (w, cells / w)).collect()
}

/// Every frame of so many cells over the three values.
pub fn every_frame(cells: usize) -> impl Iterator<Item = Vec<u8>> {
    let digit = |number: usize, i: usize| (number / 3usize.pow(i as u32) % 3) as u8;
    let frame = move |number: usize| (0..cells).map(|i| digit(number, i)).collect();
    (0..3usize.pow(cells as u32)).map(frame)
}

pub struct Maker {
    pub random: Random,
    stages: Vec<u32>,
}

impl Maker {
    pub fn new(seed: u64) -> Maker {
        let (random, stages) = (Random::new(seed), stages());
        Maker { random, stages }
    }

    /// Cells of 0 and 1: none occupied, all, all but one, one, or some in eight.
    pub fn measured(&mut self, n: usize) -> Vec<u8> {
        let thickness = self.random.below(11);
        let mut cells = match thickness {
            0 | 1 => vec![0; n],
            2 | 3 => vec![1; n],
            some => (0..n)
                .map(|_| u8::from(self.random.below(8) < some - 3))
                .collect(),
        };
        if thickness == 1 || thickness == 3 {
            cells[self.random.below(n)] ^= 1;
        }
        cells
    }

    /// Such cells, some of them then not measured.
    pub fn cells(&mut self, n: usize) -> Vec<u8> {
        let mut cells = self.measured(n);
        self.unmeasure(&mut cells);
        cells
    }

    /// No cell is made 2, or one is, or about half of them are.
    pub fn unmeasure(&mut self, cells: &mut [u8]) {
        match self.random.below(3) {
            0 => {}
            1 => cells[self.random.below(cells.len())] = 2,
            _ => {
                let holes = cells.iter_mut().filter(|_| self.random.once_in(2));
                holes.for_each(|cell| *cell = 2);
            }
        }
    }

    /// Any bytes, as they stand past a grid.
    pub fn dirt(&mut self, n: usize) -> Vec<u8> {
        (0..n).map(|_| self.random.word() as u8).collect()
    }

    /// A number of bytes past a grid, often none.
    pub fn extra(&mut self) -> usize {
        match self.random.below(4) {
            0 | 1 => 0,
            2 => 1 + self.random.below(3),
            _ => self.random.below(600),
        }
    }

    /// An image with a random grid, and dirt past it.
    pub fn image(&mut self, (w, h): (usize, usize), extra: usize) -> Vec<u8> {
        [self.cells(grid_of(w, h)), self.dirt(extra)].concat()
    }

    /// A number from 1 to 240, the ends often.
    pub fn side(&mut self) -> usize {
        match self.random.below(8) {
            0 => 1 + self.random.below(3),
            1 => 238 + self.random.below(3),
            _ => 1 + self.random.below(240),
        }
    }

    pub fn size(&mut self) -> (usize, usize) {
        (self.side(), self.side())
    }

    /// The word of a random stage.
    pub fn word(&mut self) -> u32 {
        stage_word(self.random.pick(&self.stages))
    }

    /// A single stage that no ground refuses, with extra bytes in either image.
    pub fn stage(&mut self, size: (usize, usize)) -> Case {
        let (word, mode) = (self.word(), self.random.pick(&MODES));
        let extra = self.extra();
        let from = self.image(size, extra);
        let to_n = grid_of(size.0, size.1) + self.extra();
        Case::stage(word, mode, size, &from, to_n)
    }

    /// Putting that no ground refuses, with extra bytes in the image.
    pub fn put(&mut self, (w, h): (usize, usize)) -> Case {
        let image_n = grid_of(w, h) + self.extra();
        let around = self.random.pick(&AROUND);
        Case::put(w, h, &self.cells(w * h), around, image_n)
    }
}
