//! A list of arrivals under one plan, W and H: both frames free at first, in the same
//! memory from the first arrival to the last, written by the library's call alone.

use super::grounds::holding;
use super::reference::dilation;
use super::{library, Case};
use crate::cases::hex;
use crate::frames::grid_of;
use crate::operations::library::{operate, part};
use crate::operations::Op;
use crate::reference::points::{of_plan, Point};

pub struct Waterfall {
    pub plan: Vec<u32>,
    pub size: (usize, usize),
    points: Vec<Point>,
    live: Vec<u8>,
    kept: Vec<u8>,
    /// The last H rows of H free ones and all that were taken.
    present: Vec<u8>,
    pub taken: usize,
    pub refused: usize,
    /// Calls after which the kept frame has free cells and occupied ones, and calls after
    /// which it has cells that aren't measured.
    pub mixed: usize,
    pub unmeasured: usize,
}

impl Waterfall {
    pub fn new(plan: &[u32], size: (usize, usize)) -> Waterfall {
        let free = vec![0; size.0 * size.1];
        Waterfall {
            plan: plan.to_vec(),
            size,
            points: of_plan(plan),
            live: free.clone(),
            kept: free.clone(),
            present: free,
            taken: 0,
            refused: 0,
            mixed: 0,
            unmeasured: 0,
        }
    }

    /// A row that no ground refuses arrives.
    pub fn take(&mut self, row: &[u8]) {
        let answer = library::arrive(&self.plan, self.size, row, &mut self.live, &mut self.kept);
        assert_eq!(answer, 0, "row {row:?} by {}", hex(&self.plan));
        self.present.drain(..self.size.0);
        self.present.extend(row);
        self.taken += 1;
        self.assert_frames();
    }

    /// A row arrives with a plan and a size that may be others, and is refused.
    pub fn refuse(&mut self, plan: &[u32], size: (usize, usize), row: &[u8], ground: usize) {
        let case = Case::new(plan, size, row, &self.live, &self.kept);
        assert_eq!(holding(&case).first(), Some(&ground), "{case}");
        let answer = library::arrive(plan, size, row, &mut self.live, &mut self.kept);
        assert_eq!(answer, -(ground as i64), "{case}");
        self.refused += 1;
        self.assert_frames();
    }

    /// The live frame is the rows now present, the kept one their whole dilation, by the
    /// plan's points and by the library's operation.
    fn assert_frames(&mut self) {
        let after = || {
            let (taken, refused) = (self.taken, self.refused);
            let plan = hex(&self.plan);
            format!(
                "{plan} on {:?}, {taken} taken, {refused} refused",
                self.size
            )
        };
        assert!(self.live == self.present, "the live frame: {}", after());
        let direct = dilation(self.size, &self.present, &self.points);
        assert!(self.kept == direct, "the kept frame: {}", after());
        let operated = self.operated();
        assert!(self.kept == operated, "the operation's: {}", after());
        let has = |cell: u8| self.kept.contains(&cell);
        self.mixed += usize::from(has(0) && has(1));
        self.unmeasured += usize::from(has(2));
    }

    /// The part that the library's dilation of the live frame hands back.
    fn operated(&self) -> Vec<u8> {
        let (size, grid) = (self.size, grid_of(self.size.0, self.size.1));
        let (mut first, mut second, mut image) = (vec![7; grid], vec![8; grid], 0);
        let plan = &self.plan;
        let stages = operate(Op::Dilate, plan, size, &self.live, &mut first, &mut second);
        let length = part(stages, size, &first, &second, &mut image);
        assert_eq!(length, self.live.len() as i64, "the part of {}", hex(plan));
        let mut cells = if image == 1 { first } else { second };
        cells.truncate(self.live.len());
        cells
    }
}
