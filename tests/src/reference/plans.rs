//! The shortest plan by exhaustive search: all never-falling lists of n stages in
//! order, for n rising from 0 to w + h; the first whose sum is the shape.
//!
//! Lists are passed over for two reasons, both named by document 01. One is the
//! extents: each stage adds its own to w and h, at most 2 to each and at least 1 to
//! w + h. The other is a partial sum Y with A unlike (A ⊖ Y) ⊕ Y; a sum is the same
//! in any order, so a single stage of the list is such a partial sum too.

use super::grounds::is_stage;
use super::points::{bounds, moved, of_mask, Point};
use super::sets::Set;
use std::sync::OnceLock;

/// The masks of the plan that is written for the shape, none if it has no chain.
pub fn shortest(points: &[Point]) -> Option<Vec<u32>> {
    let (least, greatest) = bounds(points);
    let cells = moved(points, (-least.0, -least.1));
    let extents = (greatest.0 - least.0, greatest.1 - least.1);
    if extents.0.max(extents.1) <= 7 {
        Planner::<1>::new(&cells).shortest(extents)
    } else {
        Planner::<4>::new(&cells).shortest(extents)
    }
}

/// The plan list: head, place, stages. The offset is the least x and y of the points.
pub fn to_plan_list(points: &[Point], masks: &[u32]) -> Vec<u32> {
    let (least, _) = bounds(points);
    let place = (least.0 + 15) as u32 | ((least.1 + 15) as u32) << 8;
    let mut list = vec![0x3000_0000 | masks.len() as u32, 0x4000_0000 | place];
    list.extend(masks.iter().map(|mask| 0x5000_0000 | mask));
    list
}

/// The 399 stages with their cells, masks rising; made once.
fn all_stages() -> &'static [(u32, Vec<Point>)] {
    static STAGES: OnceLock<Vec<(u32, Vec<Point>)>> = OnceLock::new();
    STAGES.get_or_init(|| {
        let masks = (0..512).filter(|&mask| is_stage(mask));
        masks.map(|mask| (mask, of_mask(mask))).collect()
    })
}

struct Stage<const WORDS: usize> {
    mask: u32,
    extents: Point,
    cells: Set<WORDS>,
}

/// A shape's points, moved so that the least x and y are 0, and the stages, masks rising.
struct Planner<const WORDS: usize> {
    shape: Set<WORDS>,
    stages: Vec<Stage<WORDS>>,
}

impl<const WORDS: usize> Planner<WORDS> {
    fn new(cells: &[Point]) -> Self {
        let (shape, stages) = (Set::of(cells), Vec::new());
        let mut planner = Planner { shape, stages };
        for (mask, cells) in all_stages() {
            let (mask, extents, cells) = (*mask, bounds(cells).1, Set::of(cells));
            if planner.is_partial_sum(&cells) {
                planner.stages.push(Stage {
                    mask,
                    extents,
                    cells,
                });
            }
        }
        planner
    }

    /// False if the sum can be passed over.
    fn is_partial_sum(&self, sum: &Set<WORDS>) -> bool {
        self.shape.minus(sum).plus(sum) == self.shape
    }

    fn shortest(&self, extents: Point) -> Option<Vec<u32>> {
        let origin = Set::of(&[(0, 0)]);
        (0..=extents.0 + extents.1).find_map(|n| self.first_list(n, &self.stages, &origin, extents))
    }

    /// The first list of n of these stages that completes the sum, whose extents are
    /// so far below the shape's.
    fn first_list(
        &self,
        n: i64,
        stages: &[Stage<WORDS>],
        sum: &Set<WORDS>,
        missing: Point,
    ) -> Option<Vec<u32>> {
        if n == 0 {
            return (*sum == self.shape).then(Vec::new);
        }
        for (i, stage) in stages.iter().enumerate() {
            let missing = (missing.0 - stage.extents.0, missing.1 - stage.extents.1);
            if !can_be_added(missing, n - 1) {
                continue;
            }
            let sum = sum.plus(&stage.cells);
            if !self.is_partial_sum(&sum) {
                continue;
            }
            if let Some(list) = self.first_list(n - 1, &stages[i..], &sum, missing) {
                return Some([&[stage.mask], &list[..]].concat());
            }
        }
        None
    }
}

/// Some n stages could add these extents.
fn can_be_added((w, h): Point, n: i64) -> bool {
    let each = 0..=2 * n;
    each.contains(&w) && each.contains(&h) && w + h >= n
}
