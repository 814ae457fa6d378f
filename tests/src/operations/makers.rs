//! Makers of plans, pictures and cases that no ground refuses.

use super::{plan_list, Case, Op};
use crate::frames::grid_of;
use crate::frames::makers::Maker as Frames;
use crate::library;
use crate::lists::planning::Kind;
use crate::lists::Maker as Lists;
use crate::random::Random;
use crate::reference::grounds::is_stage;
use crate::reference::points::{bounds, of_mask, Point};

pub struct Maker {
    pub random: Random,
    pub frames: Frames,
    pub lists: Lists,
    /// The 399 stages, each with its extents.
    stages: Vec<(u32, Point)>,
}

impl Maker {
    pub fn new(seed: u64) -> Maker {
        let masks = (0..512).filter(|&mask| is_stage(mask));
        Maker {
            random: Random::new(seed),
            frames: Frames::new(seed ^ 0xf00d),
            lists: Lists::new(seed ^ 0xcafe),
            stages: masks.map(|mask| (mask, bounds(&of_mask(mask)).1)).collect(),
        }
    }

    /// A plan list in range that no planner wrote: stages whose extents add up to at
    /// most a goal each, and any offset that ground 8 allows.
    pub fn plan(&mut self) -> Vec<u32> {
        let goal = match self.random.below(8) {
            0 => (0, 0),
            1 => (15, 15),
            2 | 3 => (self.random.between(0, 15), self.random.between(0, 15)),
            4 | 5 => (self.random.between(0, 5), self.random.between(0, 5)),
            _ => (self.random.between(0, 2), self.random.between(0, 2)),
        };
        let (masks, extents) = self.masks(goal);
        plan_list((self.offset(extents.0), self.offset(extents.1)), &masks)
    }

    /// Never-falling masks that together have extents up to these, and what they have.
    fn masks(&mut self, goal: Point) -> (Vec<u32>, Point) {
        let small = self.random.once_in(3);
        let (mut masks, mut sum) = (Vec::new(), (0, 0));
        for _ in 0..60 {
            let (mask, (w, h)) = match small {
                true => self.random.pick(&[(3, (1, 0)), (9, (0, 1)), (10, (1, 1))]),
                false => self.random.pick(&self.stages),
            };
            if sum.0 + w <= goal.0 && sum.1 + h <= goal.1 && masks.len() < 30 {
                masks.push(mask);
                sum = (sum.0 + w, sum.1 + h);
            }
        }
        masks.sort();
        (masks, sum)
    }

    /// An offset for points that reach so far: an extreme, 0, any, or often one with
    /// which the points are close to 0.
    fn offset(&mut self, extent: i64) -> i64 {
        let greatest = 15 - extent;
        match self.random.below(12) {
            0 => -15,
            1 => greatest,
            2 => greatest.min(0),
            3 => self.random.between(-15, greatest),
            _ => self.random.between(-extent - 1, 1).clamp(-15, greatest),
        }
    }

    /// A random shape of the kind, with w and h up to a limit, and the plan that the
    /// library's planning writes for it; none if it has none.
    pub fn planned(&mut self, kind: Kind, limit: i64) -> Option<(Vec<u32>, Vec<u32>)> {
        let shape = self.lists.small_shape(kind, limit);
        let plan = planned(&shape)?;
        Some((shape, plan))
    }

    /// A picture of which some cells are not measured.
    pub fn picture(&mut self, size: (usize, usize)) -> Vec<u8> {
        let mut cells = self.measured(size);
        self.frames.unmeasure(&mut cells);
        cells
    }

    /// Cells at random, or rectangles of either kind with a few cells flipped, so that
    /// large shapes too leave something. All are measured.
    pub fn measured(&mut self, (w, h): (usize, usize)) -> Vec<u8> {
        if self.random.once_in(3) {
            return self.frames.measured(w * h);
        }
        let ground = self.random.below(2) as u8;
        let mut cells = vec![ground; w * h];
        for _ in 0..1 + self.random.below(4) {
            let value = self.random.below(2) as u8;
            let (left, top) = (self.random.below(w), self.random.below(h));
            let (right, bottom) = (
                left + self.random.below(w - left),
                top + self.random.below(h - top),
            );
            for y in top..=bottom {
                cells[y * w + left..=y * w + right].fill(value);
            }
        }
        for _ in 0..self.random.below(4) {
            cells[self.random.below(w * h)] ^= 1;
        }
        cells
    }

    /// The operation on a random picture of this size, extra bytes in either image.
    pub fn case(&mut self, op: Op, plan: &[u32], size: (usize, usize)) -> Case {
        let frame = self.picture(size);
        let images = self.images(size);
        Case::new(op, plan, size, &frame, images)
    }

    /// Lengths of both images, long enough.
    pub fn images(&mut self, (w, h): (usize, usize)) -> (usize, usize) {
        let grid = grid_of(w, h);
        (grid + self.frames.extra(), grid + self.frames.extra())
    }
}

/// The plan that the library's planning writes, as many words as the length returned;
/// none if it answers a refusal.
pub fn planned(shape: &[u32]) -> Option<Vec<u32>> {
    let mut out = [0x5555_5555; 32];
    let length = library::plan(shape, &mut out);
    (length > 0).then(|| out[..length as usize].to_vec())
}
