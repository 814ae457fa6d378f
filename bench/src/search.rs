//! The plain search, as the library had it before the quick one: never-falling lists, and
//! the extents and (A ⊖ Y) ⊕ Y = A to pass sums over by. It is here for its counts alone.

use crate::rows::{extents, grow, is_marked, least_position, shrink, Rows, MOST_STAGES};

/// Why a search ended.
#[derive(Clone, Copy, Debug, PartialEq, Eq)]
pub enum End {
    /// The first `n` stages of the path are the plan.
    Plan(usize),
    NoChain,
    GaveUp,
}

pub struct Search {
    shape: Rows,
    w: usize,
    h: usize,
    /// Stages m with (A ⊖ m) ⊕ m = A; no other can be in a chain.
    open: [bool; 512],
    /// The masks from the root to the node.
    pub path: [u16; MOST_STAGES],
    /// Nodes opened, and stages tried against the shape, those at the root once for
    /// each number of stages.
    pub nodes: u64,
    pub tests: u64,
    /// Tests after which the search gives up.
    limit: u64,
}

/// What a node has: the sum so far, what is left of the shape by it, the extents
/// that are still to be added and the number of stages to add them.
struct Here {
    sum: Rows,
    rest: Rows,
    w: usize,
    h: usize,
    k: usize,
}

impl Search {
    /// Of a shape that isn't empty.
    pub fn new(rows: &Rows, limit: u64) -> Search {
        let shape = least_position(rows);
        let (w, h) = extents(&shape);
        let mut open = [false; 512];
        for (m, open) in open.iter_mut().enumerate() {
            *open = is_marked(&shape, m as u16);
        }
        Search {
            shape,
            w,
            h,
            open,
            path: [0; MOST_STAGES],
            nodes: 0,
            tests: 0,
            limit,
        }
    }

    /// The shortest plan, of several the first in the order of masks.
    pub fn run(&mut self) -> End {
        let (w, h) = (self.w, self.h);
        let mut origin = [0; 16];
        origin[0] = 1;
        for n in w.max(h).div_ceil(2)..=w + h {
            let root = Here {
                sum: origin,
                rest: self.shape,
                w,
                h,
                k: n,
            };
            if self.node(&root, 0, 0) {
                return End::Plan(n);
            }
            if self.tests >= self.limit {
                return End::GaveUp;
            }
        }
        End::NoChain
    }

    /// True if stages from m on complete the sum; they are then in the path.
    fn node(&mut self, here: &Here, depth: usize, m: usize) -> bool {
        self.nodes += 1;
        if here.k == 0 {
            return here.sum == self.shape;
        }
        (m..512).any(|i| self.open[i] && self.stage(here, depth, i))
    }

    /// True if the stage m and stages from m on complete the sum.
    fn stage(&mut self, here: &Here, depth: usize, m: usize) -> bool {
        let mask = m as u16;
        let (mw, mh) = (mask_width(mask), mask_height(mask));
        if mw > here.w || mh > here.h || self.tests >= self.limit {
            return false;
        }
        let (w, h, k) = (here.w - mw, here.h - mh, here.k - 1);
        if w > 2 * k || h > 2 * k || w + h < k {
            return false;
        }
        self.tests += 1;
        let (sum, rest) = (grow(&here.sum, mask), shrink(&here.rest, mask));
        if sum_of(&sum, &rest) != self.shape {
            return false;
        }
        self.path[depth] = mask;
        let below = Here { sum, rest, w, h, k };
        self.node(&below, depth + 1, m)
    }
}

/// The extents of a stage.
fn mask_width(mask: u16) -> usize {
    match () {
        _ if mask & 0o444 != 0 => 2,
        _ if mask & 0o222 != 0 => 1,
        _ => 0,
    }
}

fn mask_height(mask: u16) -> usize {
    match () {
        _ if mask & 0o700 != 0 => 2,
        _ if mask & 0o070 != 0 => 1,
        _ => 0,
    }
}

/// The sum of two sets of cells, cut to the window.
fn sum_of(a: &Rows, b: &Rows) -> Rows {
    let mut sum = [0; 16];
    for (down, &row) in b.iter().enumerate() {
        let mut cells = row;
        while cells != 0 {
            let right = cells.trailing_zeros();
            for y in down..16 {
                sum[y] |= a[y - down] << right;
            }
            cells &= cells - 1;
        }
    }
    sum
}
