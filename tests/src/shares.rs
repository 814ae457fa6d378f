//! The load in ten-thousandths, request W2 of document 02: quotient and remainder. One case
//! is a size, a frame, and what stands in the place of the remainder before the call.

use std::fmt;

pub mod check;
pub mod grounds;
pub mod library;
pub mod makers;
pub mod reference;
pub mod tally;

#[derive(Clone, Debug)]
pub struct Case {
    pub w: usize,
    pub h: usize,
    pub frame: Vec<u8>,
    pub before: u32,
}

impl Case {
    /// The share of a frame of W columns and H rows.
    pub fn new((w, h): (usize, usize), frame: &[u8], before: u32) -> Case {
        let frame = frame.to_vec();
        Case {
            w,
            h,
            frame,
            before,
        }
    }

    /// Makes every measured cell 2.
    pub fn unmeasure(&mut self) {
        let measured = self.frame.iter_mut().filter(|cell| **cell < 2);
        measured.for_each(|cell| *cell = 2);
    }

    /// The number of measured cells.
    pub fn measured(&self) -> i64 {
        self.frame.iter().filter(|&&cell| cell < 2).count() as i64
    }
}

impl fmt::Display for Case {
    fn fmt(&self, f: &mut fmt::Formatter) -> fmt::Result {
        let (w, h, n) = (self.w, self.h, self.frame.len());
        write!(f, "share, W {w}, H {h}, frame of {n} bytes")?;
        if n <= 400 {
            write!(f, " {:?}", self.frame)?;
        }
        write!(f, ", {} in the place of the remainder", self.before)
    }
}
