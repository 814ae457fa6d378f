//! Makers of shares: frames of all sizes and densities, cases in which just the chosen
//! grounds hold, and good cases with one thing damaged.

use super::Case;
use crate::frames::makers::Maker as Frames;
use crate::frames::refused::Kind;
use crate::random::Random;

/// Values that no cell has.
pub const BAD_CELLS: [u8; 5] = [3, 4, 128, 254, 255];

/// Sides that no frame has; cut to 8, 16 or 32 bits, some would do.
pub const BAD_SIDES: [usize; 13] = [
    0,
    241,
    242,
    255,
    256,
    256 + 3,
    (1 << 16) + 3,
    1 << 32,
    (1 << 32) + 3,
    usize::MAX / 2 + 1,
    usize::MAX / 2 + 4,
    usize::MAX - 1,
    usize::MAX,
];

pub struct Maker {
    pub random: Random,
    pub frames: Frames,
}

impl Maker {
    pub fn new(seed: u64) -> Maker {
        let (random, frames) = (Random::new(seed), Frames::new(seed ^ 0xf00d));
        Maker { random, frames }
    }

    /// What stands in the place of the remainder before the call.
    pub fn before(&mut self) -> u32 {
        let any = self.random.word();
        self.random.pick(&[0, 1, u32::MAX, any])
    }

    /// One row, one column, as wide or as high as can be, few cells, or any.
    pub fn size(&mut self) -> (usize, usize) {
        let side = self.frames.side();
        match self.random.below(8) {
            0 => (1, side),
            1 => (side, 1),
            2 => (240, side),
            3 => (side, 240),
            4 | 5 => (1 + self.random.below(16), 1 + self.random.below(16)),
            _ => self.frames.size(),
        }
    }

    /// So many cells, just so many of them occupied, at random places.
    pub fn with_occupied(&mut self, cells: usize, occupied: usize) -> Vec<u8> {
        let mut frame = vec![0; cells];
        frame[..occupied].fill(1);
        for place in (1..cells).rev() {
            frame.swap(place, self.random.below(place + 1));
        }
        frame
    }

    /// A case that no ground refuses, of any density: some cells are not measured, one is.
    pub fn share(&mut self, size: (usize, usize)) -> Case {
        let cells = size.0 * size.1;
        let occupied = self.random.below(cells + 1);
        let mut frame = match self.random.once_in(2) {
            true => self.with_occupied(cells, occupied),
            false => self.frames.measured(cells),
        };
        let (place, cell) = (self.random.below(cells), self.random.below(2) as u8);
        self.frames.unmeasure(&mut frame);
        if frame.iter().all(|&cell| cell == 2) {
            frame[place] = cell;
        }
        Case::new(size, &frame, self.before())
    }

    /// A case in which these grounds hold and no other; but 16 holds too where there is no
    /// cell, or just one that is above 2.
    pub fn refused(&mut self, held: &[i64]) -> Case {
        let load = self.frames.refused(Kind::Load, held);
        let mut case = Case::new((load.w, load.h), &load.read, self.before());
        if held.contains(&16) {
            case.unmeasure();
        }
        case
    }

    /// The first place, the last or any.
    pub fn place(&mut self, n: usize) -> usize {
        let any = self.random.below(n);
        self.random.pick(&[0, n - 1, any])
    }

    /// Another side, a frame of another length, a cell above 2, or no measured cell.
    pub fn damage(&mut self, case: &mut Case) {
        let (n, bad) = (case.frame.len(), self.random.pick(&BAD_SIDES));
        match self.random.below(9) {
            0 => case.w = bad,
            1 => case.h = bad,
            2 => case.w = self.frames.side(),
            3 => case.h = self.frames.side(),
            4 => case.frame.truncate(self.random.below(n.max(1))),
            5 => case.frame.extend(vec![1; 1 + self.random.below(3)]),
            6 => {
                case.frame.pop();
            }
            7 => case.unmeasure(),
            _ if n == 0 => {}
            _ => {
                let place = self.place(n);
                case.frame[place] = self.random.pick(&BAD_CELLS);
            }
        }
    }
}
