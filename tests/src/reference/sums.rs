//! A second planner, over sums in place of lists. Its one question: can this sum be
//! completed by at most k stages? It is put to each stage after the sum in turn, and what
//! came of a sum is remembered, whatever stages led there. So no order of masks is kept;
//! the list comes from the origin by the smallest mask after which the answer is still yes.
//!
//! Sums are passed over by document 01's sentence on partial sums and by the extents, which
//! add, and by nothing else. A stage that can't follow a sum can't follow a longer one.

use super::grounds::is_stage;
use super::points::{bounds, moved, of_mask, Point};
use std::collections::HashMap;
use std::sync::OnceLock;

/// Cells with x and y from 0 to 15: cell (x, y) is bit x of row y. The rows from 16 on are
/// empty, so that every loop over rows has a fixed length.
type Cells = [u16; 32];

#[derive(Debug, PartialEq, Eq)]
pub enum Answer {
    /// The masks of the plan that is written.
    Plan(Vec<u32>),
    NoChain,
    /// More sums were held against the shape than the limit.
    TooMany,
}

#[derive(Clone, Copy)]
struct Stage {
    mask: u32,
    cells: Cells,
    w: usize,
    h: usize,
}

/// A sum, and by how much its extents are below the shape's.
#[derive(Clone, Copy)]
struct Sum {
    cells: Cells,
    w: usize,
    h: usize,
}

/// What is known of a sum: so many stages don't complete it, so many do.
#[derive(Clone, Copy)]
struct Known {
    not_by: Option<usize>,
    by: usize,
}

struct Planner {
    shape: Cells,
    /// w + h.
    extents: usize,
    known: HashMap<Cells, Known>,
    /// Sums that may still be held against the shape.
    left: usize,
}

/// The plan that document 01 picks, unless more sums than the limit are needed.
pub fn shortest(points: &[Point], limit: usize) -> Answer {
    let (least, greatest) = bounds(points);
    let shape = cells_of(&moved(points, (-least.0, -least.1)));
    let origin = Sum {
        cells: cells_of(&[(0, 0)]),
        w: (greatest.0 - least.0) as usize,
        h: (greatest.1 - least.1) as usize,
    };
    let mut planner = Planner {
        shape,
        extents: origin.w + origin.h,
        known: HashMap::new(),
        left: limit,
    };
    match planner.plan(&origin) {
        _ if planner.left == 0 => Answer::TooMany,
        None => Answer::NoChain,
        Some(masks) => Answer::Plan(masks),
    }
}

impl Planner {
    /// None too if no sum is left.
    fn plan(&mut self, origin: &Sum) -> Option<Vec<u32>> {
        let most = self.extents;
        let stages = self.after(origin, all_stages(), most);
        if !self.completed(origin, &stages, most) {
            return None;
        }
        let n = (0..most).find(|&n| self.completed(origin, &stages, n));
        self.first_list(origin, &stages, n.unwrap_or(most))
    }

    /// The smallest mask from the origin on, again and again.
    fn first_list(&mut self, origin: &Sum, stages: &[Stage], n: usize) -> Option<Vec<u32>> {
        let (mut here, mut masks) = (*origin, Vec::new());
        for k in (0..n).rev() {
            let open = self.after(&here, stages, k + 1);
            let leads = |stage: &&Stage| self.completed(&here.with(stage), &open, k);
            let stage = open.iter().find(leads)?;
            here = here.with(stage);
            masks.push(stage.mask);
        }
        // Of the stages in any order, the smallest first is the order of a plan.
        let never_falls = masks.windows(2).all(|pair| pair[0] <= pair[1]);
        assert!(never_falls, "{masks:?}");
        Some(masks)
    }

    /// True if at most k of the stages complete the sum. False too if no sum is left.
    fn completed(&mut self, sum: &Sum, stages: &[Stage], k: usize) -> bool {
        if sum.w == 0 && sum.h == 0 {
            return sum.cells == self.shape;
        }
        if sum.w > 2 * k || sum.h > 2 * k || self.left == 0 {
            return false;
        }
        let unknown = Known {
            not_by: None,
            by: usize::MAX,
        };
        let known = *self.known.get(&sum.cells).unwrap_or(&unknown);
        if k >= known.by || known.not_by.is_some_and(|least| k <= least) {
            return k >= known.by;
        }
        let open = self.after(sum, stages, k);
        // Thick stages first: what is left then is small.
        let leads = |stage: &Stage| self.completed(&sum.with(stage), &open, k - 1);
        let yes = open.iter().rev().any(leads);
        let now = match yes {
            true => Known { by: k, ..known },
            false => Known {
                not_by: Some(k),
                ..known
            },
        };
        if self.left > 0 {
            self.known.insert(sum.cells, now);
        }
        yes
    }

    /// The stages that may follow the sum Y if k are left: those that leave no extents
    /// above 2 for each stage after, and A = (A ⊖ Y') ⊕ Y' for Y' = Y with the stage.
    fn after(&mut self, sum: &Sum, stages: &[Stage], k: usize) -> Vec<Stage> {
        let rest = minus(&self.shape, &sum.cells);
        let fits = |stage: &&Stage| {
            let left = |missing: usize, by: usize| missing >= by && missing - by + 2 <= 2 * k;
            left(sum.w, stage.w) && left(sum.h, stage.h)
        };
        let may_follow = |stage: &&Stage| {
            self.left = self.left.saturating_sub(1);
            let (longer, rest) = (sum.with(stage), minus(&rest, &stage.cells));
            let whole = match longer.w + longer.h < self.extents / 2 {
                true => plus(&longer.cells, &rest),
                false => plus(&rest, &longer.cells),
            };
            whole == self.shape
        };
        let fitting = stages.iter().filter(fits);
        fitting.filter(may_follow).copied().collect()
    }
}

impl Sum {
    /// With a stage that fits.
    fn with(&self, stage: &Stage) -> Sum {
        Sum {
            cells: plus(&self.cells, &stage.cells),
            w: self.w - stage.w,
            h: self.h - stage.h,
        }
    }
}

/// The 399 stages, masks rising; made once.
fn all_stages() -> &'static [Stage] {
    static STAGES: OnceLock<Vec<Stage>> = OnceLock::new();
    let stage = |mask: u32| {
        let points = of_mask(mask);
        let (w, h) = bounds(&points).1;
        Stage {
            mask,
            cells: cells_of(&points),
            w: w as usize,
            h: h as usize,
        }
    };
    STAGES.get_or_init(|| (0..512).filter(|&mask| is_stage(mask)).map(stage).collect())
}

fn cells_of(points: &[Point]) -> Cells {
    let mut cells = [0; 32];
    for &(x, y) in points {
        cells[y as usize] |= 1 << x;
    }
    cells
}

/// Does something for each cell, given as x and y.
fn for_each(cells: &Cells, mut work: impl FnMut(u32, usize)) {
    for (y, &row) in cells[..16].iter().enumerate() {
        let mut left = row;
        while left != 0 {
            work(left.trailing_zeros(), y);
            left &= left - 1;
        }
    }
}

/// All sums of a cell of one and a cell of the other; none is beyond the window.
fn plus(many: &Cells, few: &Cells) -> Cells {
    let mut sum = [0; 32];
    for_each(few, |x, y| {
        for (to, row) in sum[y..y + 16].iter_mut().zip(&many[..16]) {
            *to |= row << x;
        }
    });
    sum
}

/// The points p with p + q in `a` for every cell q of `b`, which has one with x = 0 and one
/// with y = 0.
fn minus(a: &Cells, b: &Cells) -> Cells {
    let mut rest = [0; 32];
    rest[..16].fill(0xffff);
    for_each(b, |x, y| {
        for (to, row) in rest[..16].iter_mut().zip(&a[y..y + 16]) {
            *to &= row >> x;
        }
    });
    rest
}
