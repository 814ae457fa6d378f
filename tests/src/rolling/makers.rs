//! Makers of arrivals: rows, frames, and cases in which just the chosen grounds hold.

use super::Case;
use crate::operations::makers::Maker;

impl Maker {
    /// A row of free cells, of a few occupied ones and a few not measured, or of any.
    pub fn row(&mut self, w: usize) -> Vec<u8> {
        let mut row = vec![0; w];
        match self.random.below(4) {
            0 => {}
            1 => row = self.picture((w, 1)),
            _ => {
                for _ in 0..1 + self.random.below(3) {
                    row[self.random.below(w)] = self.random.pick(&[1, 1, 2]);
                }
            }
        }
        row
    }

    /// An arrival that no ground refuses, at a live frame of such rows and a kept frame of
    /// any cells, which is wrong as a rule.
    pub fn arrival(&mut self, plan: &[u32], (w, h): (usize, usize)) -> Case {
        let live: Vec<u8> = (0..h).flat_map(|_| self.row(w)).collect();
        let (row, kept) = (self.row(w), self.frames.cells(w * h));
        Case::new(plan, (w, h), &row, &live, &kept)
    }

    /// A case in which these grounds hold and no other; but 8 holds with 6 too, and
    /// nothing is said of it where one of 1 to 3 holds.
    pub fn refused_arrival(&mut self, held: &[usize]) -> Case {
        let holds = |ground: usize| held.contains(&ground);
        let plan = self.refused_plan(held);
        let size = self.size_with(holds(11), holds(13));
        let (live, kept) = self.frame_lengths(size.0 * size.1, holds(12));
        let row = self.frame_length(size.0, holds(15));
        let cell = self.random.pick(&[0, 1, 2]);
        let cells = |n: usize| vec![cell; n];
        let mut case = Case::new(&plan, size, &cells(row), &cells(live), &cells(kept));
        if holds(13) {
            self.spoil_a_cell(&mut case);
        }
        case
    }

    /// As many as the cells in both frames, or another number in one of them or in both.
    fn frame_lengths(&mut self, cells: usize, wrong: bool) -> (usize, usize) {
        let other = self.frame_length(cells, true);
        match self.random.below(4) {
            _ if !wrong => (cells, cells),
            0 => (other, cells),
            1 => (cells, other),
            2 => (other, other),
            _ if cells == 0 => (0, 1),
            _ => (cells + 1, cells - 1),
        }
    }

    /// A cell above 2 in the row or in either frame, where there is one.
    fn spoil_a_cell(&mut self, case: &mut Case) {
        let parts = [&mut case.row, &mut case.live, &mut case.kept];
        let mut parts: Vec<_> = parts.into_iter().filter(|part| !part.is_empty()).collect();
        let part = self.random.below(parts.len());
        let last = parts[part].len() - 1;
        let any = self.random.below(last + 1);
        let place = self.random.pick(&[0, last, any]);
        parts[part][place] = self.random.pick(&[3, 4, 128, 255]);
    }
}
