//! Cases in which just the chosen grounds hold, so that their order can be tried.

use super::makers::Maker;
use super::{grid_of, Case, AROUND, MODES};

#[derive(Clone, Copy, Debug, PartialEq, Eq)]
pub enum Kind {
    Load,
    Put,
    Stage,
}

const GOOD_SIZES: [(usize, usize); 5] = [(1, 1), (4, 3), (2, 17), (1, 240), (30, 1)];
const BAD_SIZES: [(usize, usize); 6] = [(241, 2), (1, 241), (300, 241), (0, 3), (2, 0), (0, 0)];

impl Maker {
    /// A case of the call in which these of its grounds hold and no other. Cells that
    /// no ground speaks of are all occupied.
    pub fn refused(&mut self, kind: Kind, held: &[i64]) -> Case {
        let holds = |ground: i64| held.contains(&ground);
        let size = match (holds(11), kind != Kind::Stage && holds(13)) {
            (false, _) => self.random.pick(&GOOD_SIZES),
            (true, false) => self.random.pick(&BAD_SIZES),
            // A frame has a cell that is above 2.
            (true, true) => self.random.pick(&BAD_SIZES[..3]),
        };
        let (read_n, write_n) = match kind {
            Kind::Stage => self.images(grid_of(size.0, size.1), holds(14)),
            _ => {
                let cells = self.frame_length(size.0 * size.1, holds(12));
                (cells, grid_of(size.0, size.1) - usize::from(holds(14)))
            }
        };
        let mut read = vec![1; read_n];
        if holds(13) {
            read[self.random.below(read_n)] = 3 + self.random.below(253) as u8;
        }
        match kind {
            Kind::Load => Case::load(size.0, size.1, &read),
            Kind::Put => {
                let around = self.random.pick(&AROUND);
                Case::put(size.0, size.1, &read, around, write_n)
            }
            Kind::Stage => {
                let word = self.word_with(holds(2), holds(3), holds(7));
                Case::stage(word, self.random.pick(&MODES), size, &read, write_n)
            }
        }
    }

    /// The lengths of both images: enough, or too short in one of them or in both.
    fn images(&mut self, grid: usize, short: bool) -> (usize, usize) {
        let cut = 1 + self.random.below(15);
        let less = match short {
            true => self
                .random
                .pick(&[(cut, 0), (0, cut), (1, 0), (0, 1), (1, 1)]),
            false => (0, 0),
        };
        (grid - less.0, grid - less.1)
    }

    /// As many as the cells, or another number, which isn't 0.
    fn frame_length(&mut self, cells: usize, wrong: bool) -> usize {
        match wrong {
            false => cells,
            true if cells > 1 && self.random.once_in(2) => cells - 1,
            true => cells + 1 + self.random.below(2),
        }
    }

    /// A stage word with a wrong kind, an extra bit or a mask that isn't a stage.
    fn word_with(&mut self, kind: bool, extra: bool, mask: bool) -> u32 {
        let mut pick = |wrong: bool, good: &[u32], bad: &[u32]| {
            self.random.pick(if wrong { bad } else { good })
        };
        let kind = pick(kind, &[5], &[0, 1, 2, 3, 4, 6, 7, 13, 15]);
        let extra = pick(extra, &[0], &[1 << 9, 1 << 10, 1 << 20, 1 << 27, 0xffffe00]);
        let mask = pick(mask, &[3, 17, 257, 510, 511], &[0, 1, 2, 6, 256, 504]);
        kind << 28 | extra | mask
    }
}
