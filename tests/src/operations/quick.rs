//! The library's operations by images that stay as the last call left them, for many small
//! frames; the guards of all lent memory are check.rs's.

use super::library::{operate, part};
use super::{Case, Op};
use crate::frames::grid_of;

pub struct Images {
    first: Vec<u8>,
    second: Vec<u8>,
}

impl Images {
    /// Two images full of this byte, just long enough for frames of this size.
    pub fn new((w, h): (usize, usize), byte: u8) -> Images {
        let image = vec![byte; grid_of(w, h)];
        Images {
            first: image.clone(),
            second: image,
        }
    }

    /// The part that the operation hands back; no ground refuses it.
    pub fn part(&mut self, op: Op, plan: &[u32], size: (usize, usize), frame: &[u8]) -> &[u8] {
        let (first, second) = (&mut self.first, &mut self.second);
        let answer = operate(op, plan, size, frame, first, second);
        let case = || Case::new(op, plan, size, frame, (first.len(), second.len()));
        let stages = op.stages_run(plan.len() - 2);
        assert_eq!(answer, stages as i64, "{}", case());
        let mut image = 0;
        let length = part(answer, size, first, second, &mut image);
        assert_eq!(length, frame.len() as i64, "{}: the part", case());
        match image {
            1 => &first[..frame.len()],
            _ => &second[..frame.len()],
        }
    }
}
