//! Makers of random valid lists and of whole cases.

use crate::cases::{Call, Case};
use crate::random::Random;
use crate::reference::grounds::is_stage;
use crate::reference::points::{bounds, of_mask, of_shape, Point};

pub mod damage;
pub mod full;
pub mod planning;

/// Offsets at and about the limits.
pub const EDGE_OFFSETS: [i32; 17] = [
    i32::MIN,
    i32::MIN + 15,
    i32::MAX - 15,
    i32::MAX,
    -31,
    -30,
    -16,
    -15,
    -1,
    0,
    1,
    15,
    16,
    30,
    31,
    0x1_0000,
    -0x1_0000,
];

pub struct Maker {
    pub random: Random,
    /// The 399 stages, each with its extents.
    stages: Vec<(u32, Point)>,
    /// Those with two cells.
    thin: Vec<(u32, Point)>,
}

impl Maker {
    pub fn new(seed: u64) -> Maker {
        let with_extents = |mask| (mask, bounds(&of_mask(mask)).1);
        let stages: Vec<_> = (0..512)
            .filter(|&mask| is_stage(mask))
            .map(with_extents)
            .collect();
        let thin = stages
            .iter()
            .copied()
            .filter(|stage| stage.0.count_ones() == 2)
            .collect();
        Maker {
            random: Random::new(seed),
            stages,
            thin,
        }
    }

    /// A valid case of the call, the output long enough; ground 8 may hold.
    pub fn case(&mut self, call: Call) -> Case {
        let out_n = call.least_output() + self.random.below(16);
        match call {
            Call::ShapeOfPlan => Case::of_plan(&self.plan(), out_n),
            Call::Move => {
                let shape = self.shape();
                let (least, greatest) = bounds(&of_shape(&shape));
                let dx = self.offset(least.0, greatest.0);
                let dy = self.offset(least.1, greatest.1);
                Case::of_move(&shape, dx, dy, out_n)
            }
            Call::Join | Call::Sum => Case::of_two(call, &self.shape(), &self.shape(), out_n),
            Call::Plan => {
                let kind = self.random.pick(&planning::KINDS);
                Case::of_planning(&self.small_shape(kind, 5), out_n)
            }
        }
    }

    /// A move in one axis for points from `least` to `greatest`: any number, an
    /// edge, one that brings a side to its limit or one past it, or a small one.
    fn offset(&mut self, least: i64, greatest: i64) -> i32 {
        match self.random.below(16) {
            0 => self.random.word() as i32,
            1 | 2 => self.random.pick(&EDGE_OFFSETS),
            3..=5 => (self.random.between(-16, -15) - least) as i32,
            6..=8 => (self.random.between(15, 16) - greatest) as i32,
            _ => self.random.between(-4, 4) as i32,
        }
    }

    /// A valid shape list: the full window, a box, a few cells far apart, or a tiny shape.
    pub fn shape(&mut self) -> Vec<u32> {
        let (rows, near) = match self.random.below(32) {
            0 => ([0xffff; 16], (0, 0)),
            1..=6 => self.box_of_cells(15),
            7..=9 => (self.far_cells(), (0, 0)),
            10..=17 => self.box_of_cells(7),
            _ => self.box_of_cells(3),
        };
        let anchor = self.anchor(near);
        list_of_rows(anchor, &rows)
    }

    /// Any anchor, or one close to the cells.
    fn anchor(&mut self, near: (i64, i64)) -> (u32, u32) {
        let close = self.random.once_in(2);
        let mut axis = |from: i64| match close {
            true => (from + self.random.between(-3, 3)).clamp(0, 15) as u32,
            false => self.random.below(16) as u32,
        };
        (axis(near.0), axis(near.1))
    }

    /// Cells in a box with extents up to `limit`, thick, thin or full; and its corner.
    fn box_of_cells(&mut self, limit: i64) -> ([u16; 16], (i64, i64)) {
        let (w, h) = (self.random.between(0, limit), self.random.between(0, limit));
        let corner = (
            self.random.between(0, 15 - w),
            self.random.between(0, 15 - h),
        );
        let window = ((1u32 << (w + 1)) - 1) as u16;
        let thickness = self.random.below(4);
        let mut rows = [0; 16];
        for row in &mut rows[corner.1 as usize..=(corner.1 + h) as usize] {
            let (one, two) = (self.random.word() as u16, self.random.word() as u16);
            let cells = match thickness {
                0 => 0xffff,
                1 => one | two,
                2 => one,
                _ => one & two,
            };
            *row = (cells & window) << corner.0;
        }
        if rows == [0; 16] {
            rows[corner.1 as usize] = 1 << corner.0;
        }
        (rows, corner)
    }

    /// One to six cells anywhere in the window.
    fn far_cells(&mut self) -> [u16; 16] {
        let mut rows = [0; 16];
        for _ in 0..=self.random.below(6) {
            rows[self.random.below(16)] |= 1 << self.random.below(16);
        }
        rows
    }

    /// A valid plan list of 0 to 30 stages, often at the limits of ground 8.
    pub fn plan(&mut self) -> Vec<u32> {
        let mut stages = match self.random.below(64) {
            0 => self.any_stages(),
            1..=3 => Vec::new(),
            _ => self.aimed_stages(),
        };
        stages.sort();
        let extents = stages
            .iter()
            .fold((0, 0), |sum: Point, &(_, (w, h))| (sum.0 + w, sum.1 + h));
        let place = self.place(extents.0) | self.place(extents.1) << 8;
        let mut list = vec![0x3000_0000 | stages.len() as u32, 0x4000_0000 | place];
        list.extend(stages.iter().map(|stage| 0x5000_0000 | stage.0));
        list
    }

    /// Any count of any stages; most are far out of range.
    fn any_stages(&mut self) -> Vec<(u32, Point)> {
        (0..self.random.below(31))
            .map(|_| self.random.pick(&self.stages))
            .collect()
    }

    /// Stages whose extents add up to a goal, or nearly so.
    fn aimed_stages(&mut self) -> Vec<(u32, Point)> {
        let (mut w, mut h) = (self.goal(), self.goal());
        let kind = self.random.below(4);
        let mut stages = Vec::new();
        for _ in 0..60 {
            let stage = match kind {
                0 => self.random.pick(&[(3, (1, 0)), (9, (0, 1))]),
                1 => self.random.pick(&self.thin),
                _ => self.random.pick(&self.stages),
            };
            let (sw, sh) = stage.1;
            if sw <= w && sh <= h && stages.len() < 30 {
                stages.push(stage);
                (w, h) = (w - sw, h - sh);
            }
        }
        stages
    }

    fn goal(&mut self) -> i64 {
        match self.random.below(8) {
            0 => self.random.between(0, 15),
            1..=5 => self.random.between(0, 4),
            _ => self.random.between(14, 16),
        }
    }

    /// A place field: any, or one that brings the far side to 14, 15 or 16.
    fn place(&mut self, extent: i64) -> u32 {
        let field = match self.random.below(4) {
            0 => self.random.between(0, 30),
            1 => self.random.between(0, 15),
            _ => self.random.between(29, 31) - extent,
        };
        field.clamp(0, 30) as u32
    }
}

/// The shape list of rows in the window, with its anchor.
pub fn list_of_rows(anchor: (u32, u32), rows: &[u16; 16]) -> Vec<u32> {
    let mut list = vec![0x1000_0000 | anchor.1 << 4 | anchor.0];
    for (y, &columns) in rows.iter().enumerate() {
        if columns != 0 {
            list.push(0x2000_0000 | (y as u32) << 16 | u32::from(columns));
        }
    }
    list
}
