//! Cases in which just the chosen grounds hold, so that their order can be tried.

use super::makers::Maker;
use super::{Case, Op};
use crate::frames::grid_of;

const GOOD_SIZES: [(usize, usize); 5] = [(1, 1), (4, 3), (2, 17), (1, 240), (30, 1)];
const BAD_SIZES: [(usize, usize); 6] = [(241, 2), (1, 241), (300, 241), (0, 3), (2, 0), (0, 0)];

impl Maker {
    /// A case in which these grounds hold and no other; but 8 holds with 6 too, and
    /// nothing is said of it where one of 1 to 3 holds.
    pub fn refused(&mut self, op: Op, held: &[usize]) -> Case {
        let holds = |ground: usize| held.contains(&ground);
        let plan = self.refused_plan(held);
        let size = self.size_with(holds(11), holds(13));
        let cells = self.frame_length(size.0 * size.1, holds(12));
        let mut frame = vec![self.random.pick(&[0, 1, 2]); cells];
        if holds(13) {
            let place = match self.random.below(3) {
                0 => 0,
                1 => frame.len() - 1,
                _ => self.random.below(frame.len()),
            };
            frame[place] = self.random.pick(&[3, 4, 128, 255]);
        }
        let grid = grid_of(size.0, size.1);
        let less = match holds(14) {
            false => (0, 0),
            true => self.random.pick(&[(1, 0), (0, 1), (1, 1), (9, 0), (0, 9)]),
        };
        Case::new(op, &plan, size, &frame, (grid - less.0, grid - less.1))
    }

    /// A size, bad by ground 11 or not; it has cells, if one is to be above 2.
    pub fn size_with(&mut self, bad: bool, cell: bool) -> (usize, usize) {
        match (bad, cell) {
            (false, _) => self.random.pick(&GOOD_SIZES),
            (true, false) => self.random.pick(&BAD_SIZES),
            (true, true) => self.random.pick(&BAD_SIZES[..3]),
        }
    }

    /// As many as the cells, or another number, which isn't 0.
    pub fn frame_length(&mut self, cells: usize, wrong: bool) -> usize {
        match wrong {
            false => cells,
            true if cells > 1 && self.random.once_in(2) => cells - 1,
            true => cells + 1 + self.random.below(2),
        }
    }

    /// A plan list in which these of grounds 1 to 8 hold, ground 1 by a list that is too
    /// long.
    pub fn refused_plan(&mut self, held: &[usize]) -> Vec<u32> {
        let holds = |ground: usize| held.contains(&ground);
        let stages = match holds(1) {
            true => self.random.pick(&[31, 32, 40]),
            false => 2 + self.random.below(2),
        };
        let mut masks = vec![3; stages];
        if holds(7) {
            self.spoil(&mut masks, holds(8));
        }
        // Points from -3 to 4 at most.
        let (mut dx, mut dy) = (12, 12);
        if holds(8) {
            match self.random.below(if holds(7) { 1 } else { 3 }) {
                0 => dx = 30,
                1 => (masks, dy) = (vec![3, 9], 30),
                _ => (masks, dx) = (vec![7; 8], 0), // w is 16, x from -15 to 1
            }
        }
        if holds(6) {
            match self.random.below(3) {
                0 => dx = self.random.pick(&[31, 32, 128, 255]),
                1 => dy = self.random.pick(&[31, 32, 128, 255]),
                _ => (dx, dy) = (31, 255),
            }
        }
        let mut count = masks.len() as u32;
        if holds(5) {
            count = self.random.pick(&[count - 1, count + 1, 0, 255]);
        }
        let mut plan = vec![0x3000_0000 | count, 0x4000_0000 | dx | dy << 8];
        plan.extend(masks.iter().map(|mask| 0x5000_0000 | mask));
        if holds(2) {
            plan[self.random.below(masks.len() + 2)] ^= (1 + self.random.below(15) as u32) << 28;
        }
        if holds(3) {
            plan[self.random.below(masks.len() + 2)] |= 1 << self.random.between(16, 27);
        }
        plan
    }

    /// Masks one of which isn't normal or has one cell or none, or which fall. A sum of
    /// them has two columns still, unless one is empty, which may be ruled out.
    fn spoil(&mut self, masks: &mut [u32], points: bool) {
        let place = self.random.below(masks.len());
        match self.random.below(if points { 3 } else { 4 }) {
            0 => masks[place] = self.random.pick(&[6, 24, 48, 438, 504]),
            1 => masks[place] = self.random.pick(&[1, 2, 16, 256]),
            2 => masks[0] = 511,
            _ => masks[place] = 0,
        }
    }
}
