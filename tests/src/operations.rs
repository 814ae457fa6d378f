//! Dilation, erosion, opening and closing of a frame by a plan, and the part handed
//! back. One case is an operation, a plan list, a frame and the lengths of both images.

use crate::cases::hex;
use crate::frames::Around;
use std::fmt;

pub mod by_rule;
pub mod check;
pub mod grounds;
pub mod in_turn;
pub mod library;
pub mod makers;
pub mod plane;
pub mod quick;
pub mod reference;
pub mod refused;
pub mod tally;

#[derive(Clone, Copy, Debug, PartialEq, Eq)]
pub enum Op {
    Dilate,
    Erode,
    Open,
    Close,
}

pub const OPS: [Op; 4] = [Op::Dilate, Op::Erode, Op::Open, Op::Close];

impl Op {
    /// Stages run by a plan of n stages.
    pub fn stages_run(self, n: usize) -> usize {
        match self {
            Op::Dilate | Op::Erode => n,
            Op::Open | Op::Close => 2 * n,
        }
    }

    /// What the cells outside the frame are, and so the kind of grid that it works in:
    /// erosion alone reads them as occupied.
    pub fn around(self) -> Around {
        match self {
            Op::Erode => Around::Occupied,
            Op::Dilate | Op::Open | Op::Close => Around::Free,
        }
    }

    /// The kinds of single stage that it goes through the plan with: erosion where true.
    pub fn passes(self) -> &'static [bool] {
        match self {
            Op::Dilate => &[false],
            Op::Erode => &[true],
            Op::Open => &[true, false],
            Op::Close => &[false, true],
        }
    }
}

#[derive(Clone, Debug)]
pub struct Case {
    pub op: Op,
    pub plan: Vec<u32>,
    pub w: usize,
    pub h: usize,
    pub frame: Vec<u8>,
    /// Bytes of the two work images.
    pub first_n: usize,
    pub second_n: usize,
}

impl Case {
    /// The operation on a frame with W and H, and images of so many bytes each.
    pub fn new(
        op: Op,
        plan: &[u32],
        size: (usize, usize),
        frame: &[u8],
        images: (usize, usize),
    ) -> Case {
        let (plan, frame) = (plan.to_vec(), frame.to_vec());
        Case {
            op,
            plan,
            w: size.0,
            h: size.1,
            frame,
            first_n: images.0,
            second_n: images.1,
        }
    }

    /// The same with another operation.
    pub fn by(&self, op: Op) -> Case {
        Case { op, ..self.clone() }
    }

    /// The stages of the list's plan, whatever its head says.
    pub fn stages(&self) -> usize {
        self.plan.len().saturating_sub(2)
    }

    /// The two place fields as an offset; the list has them.
    pub fn offset(&self) -> (i64, i64) {
        let field = |shift: u32| i64::from(self.plan[1] >> shift & 0xff) - 15;
        (field(0), field(8))
    }
}

/// The plan list of these masks with an offset from -15 to 15.
pub fn plan_list((dx, dy): (i64, i64), masks: &[u32]) -> Vec<u32> {
    let place = (dx + 15) as u32 | ((dy + 15) as u32) << 8;
    let mut list = vec![0x3000_0000 | masks.len() as u32, 0x4000_0000 | place];
    list.extend(masks.iter().map(|mask| 0x5000_0000 | mask));
    list
}

impl fmt::Display for Case {
    fn fmt(&self, f: &mut fmt::Formatter) -> fmt::Result {
        let (w, h, n) = (self.w, self.h, self.frame.len());
        write!(f, "{:?} by {}, W {w}, H {h}", self.op, hex(&self.plan))?;
        write!(f, ", frame of {n} bytes")?;
        if n <= 400 {
            write!(f, " {:?}", self.frame)?;
        }
        write!(f, ", images of {}, {} bytes", self.first_n, self.second_n)
    }
}
