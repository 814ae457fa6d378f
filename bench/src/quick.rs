//! The library's search in plain Rust, step by step the same, so that both open the same
//! nodes and these can be counted. It allocates nothing.
//!
//! A plain search over never-falling lists asks, before it opens a sum, whether anything
//! can still complete it; the quick search, `node` and `stage`, answers that.

use crate::rows::{extents, grow, is_marked, least_position, shrink, Rows, MOST_STAGES};
use crate::search::End;

mod numbers;

use numbers::{faces, fit, less, numbers, Numbers, H, OF_MASK, W};

/// There are so many stages.
const STAGES: usize = 399;

pub struct Quick {
    shape: Rows,
    /// The masks from the root to the node.
    pub path: [u16; MOST_STAGES],
    /// Sums opened, by the plain search or the quick one, and stages held against the
    /// shape after them. The marks at the root are no tests.
    pub nodes: u64,
    pub tests: u64,
    /// Tests after which the search gives up.
    limit: u64,
}

/// What a sum of so many stages leaves: the residue, and the numbers still to be added.
struct Here {
    rest: Rows,
    need: Numbers,
    len: usize,
}

/// Masks, those from `first` on with the number that is branched on.
struct Branch {
    masks: [u16; STAGES],
    first: usize,
    len: usize,
}

impl Quick {
    /// Of a shape that isn't empty.
    pub fn new(rows: &Rows, limit: u64) -> Quick {
        Quick {
            shape: least_position(rows),
            path: [0; MOST_STAGES],
            nodes: 0,
            tests: 0,
            limit,
        }
    }

    /// The shortest plan, of several the first in the order of masks.
    pub fn run(&mut self) -> End {
        if !faces(&self.shape) {
            return End::NoChain;
        }
        let (mut marked, mut n) = ([0; STAGES], 0);
        for mask in (0..512).filter(|&mask| is_marked(&self.shape, mask)) {
            marked[n] = mask;
            n += 1;
        }
        let root = Here {
            rest: self.shape,
            need: numbers(&self.shape),
            len: 0,
        };
        match self.shortest(&root, &marked[..n]) {
            Some(n) => End::Plan(n),
            None if self.tests >= self.limit => End::GaveUp,
            None => End::NoChain,
        }
    }

    /// Whether there is a chain at all, then the fewest stages, then the list.
    fn shortest(&mut self, root: &Here, marked: &[u16]) -> Option<usize> {
        let (w, h) = extents(&self.shape);
        if !self.node(root, marked, w + h) {
            return None;
        }
        let mut numbers = w.max(h).div_ceil(2)..=w + h;
        numbers.find(|&n| self.node(root, marked, n) && self.list(root, marked, 0, n))
    }

    /// True if k of the masks, from a place on and in order, complete the sum; they are
    /// then in the path.
    fn list(&mut self, here: &Here, marked: &[u16], from: usize, k: usize) -> bool {
        self.nodes += 1;
        if k == 0 {
            return here.need[W] == 0 && here.need[H] == 0;
        }
        (from..marked.len()).any(|place| match self.tried(here, marked, place, k - 1) {
            Some(below) => self.list(&below, marked, place, k - 1),
            None => false,
        })
    }

    /// The sum with the mask at a place, if k more may complete it.
    fn tried(&mut self, here: &Here, marked: &[u16], place: usize, k: usize) -> Option<Here> {
        let mask = marked[place];
        if !fit(&OF_MASK[mask as usize], &here.need) || self.tests >= self.limit {
            return None;
        }
        let below = self.step(here, mask, shrink(&here.rest, mask))?;
        let reach = below.need[W] as usize + below.need[H] as usize;
        (self.node(&below, marked, k) && reach >= k).then_some(below)
    }

    /// The sum with a mask whose numbers fit and that leaves this residue, none if the shape
    /// isn't the residue's sum with it.
    fn step(&mut self, here: &Here, mask: u16, rest: Rows) -> Option<Here> {
        self.tests += 1;
        let need = less(&here.need, &OF_MASK[mask as usize]);
        if !has_extents(&rest, need[W], need[H]) {
            return None;
        }
        let mut sum = grow(&rest, mask);
        if sum != here.rest {
            for &mask in &self.path[..here.len] {
                sum = grow(&sum, mask);
            }
            if sum != self.shape {
                return None;
            }
        }
        self.path[here.len] = mask;
        let len = here.len + 1;
        Some(Here { rest, need, len })
    }

    /// True if at most k of the masks complete the sum.
    fn node(&mut self, here: &Here, masks: &[u16], k: usize) -> bool {
        self.nodes += 1;
        let (w, h) = (here.need[W] as usize, here.need[H] as usize);
        if w == 0 && h == 0 {
            return true;
        }
        if w > 2 * k || h > 2 * k {
            return false;
        }
        let branch = branch(&here.need, masks);
        let masks = &branch.masks[..branch.len];
        let mut ends = (branch.first + 1..=masks.len()).rev();
        ends.any(|end| self.stage(here, &masks[..end], &masks[end..], k))
    }

    /// True if the last of the masks and at most k - 1 of them all complete the sum. Rule S:
    /// not if one tried before has its cells and leaves the same residue.
    fn stage(&mut self, here: &Here, masks: &[u16], tried: &[u16], k: usize) -> bool {
        if self.tests >= self.limit {
            return false;
        }
        let mask = masks[masks.len() - 1];
        let rest = shrink(&here.rest, mask);
        let same = |&other: &u16| other & mask == mask && shrink(&here.rest, other) == rest;
        if tried.iter().any(same) {
            return false;
        }
        match self.step(here, mask, rest) {
            Some(below) => self.node(&below, masks, k - 1),
            None => false,
        }
    }
}

/// The residue's extents are exactly these.
#[inline]
fn has_extents(rest: &Rows, w: u8, h: u8) -> bool {
    let all = rest.iter().fold(0, |all, row| all | row);
    all & 1 == 1 && all >> w == 1 && rest[0] != 0 && rest[h as usize & 15] != 0
}

/// The masks whose numbers fit, those without a needed number first: the one that the
/// fewest have. w or h is needed, so there is one.
#[inline]
fn branch(need: &Numbers, from: &[u16]) -> Branch {
    let (mut fitting, mut n, mut counts) = ([0; STAGES], 0, [0u16; 18]);
    for &mask in from {
        let numbers = &OF_MASK[mask as usize];
        if fit(numbers, need) {
            fitting[n] = mask;
            n += 1;
            for (count, &number) in counts.iter_mut().zip(numbers) {
                *count += u16::from(number != 0);
            }
        }
    }
    let needed = (0..18).filter(|&i| need[i] != 0);
    let number = needed.min_by_key(|&i| counts[i]).unwrap_or(W);
    let first = n - counts[number] as usize;
    let (mut masks, mut without, mut with) = ([0; STAGES], 0, first);
    for &mask in &fitting[..n] {
        let has = OF_MASK[mask as usize][number] != 0;
        let place = if has { &mut with } else { &mut without };
        masks[*place] = mask;
        *place += 1;
    }
    Branch {
        masks,
        first,
        len: n,
    }
}
