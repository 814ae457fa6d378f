//! One case: a call, its lists and offset, and the length of the lent output.

use std::fmt;

#[derive(Clone, Copy, Debug, PartialEq, Eq)]
pub enum Call {
    ShapeOfPlan,
    Move,
    Join,
    Sum,
    Plan,
}

/// The calls that answer a shape list: all but planning, which searches.
pub const SHAPE_CALLS: [Call; 4] = [Call::ShapeOfPlan, Call::Move, Call::Join, Call::Sum];

impl Call {
    pub fn name(self) -> &'static str {
        match self {
            Call::ShapeOfPlan => "shape_of_plan",
            Call::Move => "move",
            Call::Join => "join",
            Call::Sum => "sum",
            Call::Plan => "plan",
        }
    }

    /// Words that the lent output has at least.
    pub fn least_output(self) -> usize {
        match self {
            Call::Plan => 32,
            _ => 17,
        }
    }

    pub fn takes_two_lists(self) -> bool {
        matches!(self, Call::Join | Call::Sum)
    }
}

/// `b` is empty and unused in the calls on one list, `dx` and `dy` are 0 in all but moving.
#[derive(Clone, Debug)]
pub struct Case {
    pub call: Call,
    pub a: Vec<u32>,
    pub b: Vec<u32>,
    pub dx: i32,
    pub dy: i32,
    pub out_n: usize,
}

impl Case {
    pub fn of_plan(plan: &[u32], out_n: usize) -> Case {
        Case::new(Call::ShapeOfPlan, plan, &[], (0, 0), out_n)
    }

    pub fn of_move(shape: &[u32], dx: i32, dy: i32, out_n: usize) -> Case {
        Case::new(Call::Move, shape, &[], (dx, dy), out_n)
    }

    pub fn of_two(call: Call, a: &[u32], b: &[u32], out_n: usize) -> Case {
        Case::new(call, a, b, (0, 0), out_n)
    }

    pub fn of_planning(shape: &[u32], out_n: usize) -> Case {
        Case::new(Call::Plan, shape, &[], (0, 0), out_n)
    }

    fn new(call: Call, a: &[u32], b: &[u32], offset: (i32, i32), out_n: usize) -> Case {
        let (a, b) = (a.to_vec(), b.to_vec());
        let (dx, dy) = offset;
        Case {
            call,
            a,
            b,
            dx,
            dy,
            out_n,
        }
    }

    /// The lists that the call takes.
    pub fn lists(&self) -> Vec<&[u32]> {
        if self.call.takes_two_lists() {
            vec![&self.a, &self.b]
        } else {
            vec![&self.a]
        }
    }
}

/// Words as the printer would give them, on one line.
pub fn hex(words: &[u32]) -> String {
    let each: Vec<String> = words.iter().map(|word| format!("{word:08x}")).collect();
    format!("[{}]", each.join(" "))
}

impl fmt::Display for Case {
    fn fmt(&self, f: &mut fmt::Formatter) -> fmt::Result {
        write!(f, "{} {}", self.call.name(), hex(&self.a))?;
        match self.call {
            Call::ShapeOfPlan | Call::Plan => {}
            Call::Move => write!(
                f,
                " by {:08x} {:08x} ({}, {})",
                self.dx, self.dy, self.dx, self.dy
            )?,
            Call::Join | Call::Sum => write!(f, " and {}", hex(&self.b))?,
        }
        write!(f, ", output of {} words", self.out_n)
    }
}
