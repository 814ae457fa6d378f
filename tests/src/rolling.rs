//! The rolling waterfall, request W1 of document 02: a row arrives, the live frame moves by
//! one, and the dilation kept beside it is brought up to date. One case is a plan list, a
//! size, the arriving row and both frames.

use crate::cases::hex;
use std::fmt;

pub mod check;
pub mod grounds;
pub mod library;
pub mod makers;
pub mod reference;
pub mod tally;
pub mod waterfall;

#[derive(Clone, Debug)]
pub struct Case {
    pub plan: Vec<u32>,
    pub w: usize,
    pub h: usize,
    pub row: Vec<u8>,
    pub live: Vec<u8>,
    pub kept: Vec<u8>,
}

impl Case {
    /// A row arrives at frames of W columns and H rows.
    pub fn new(plan: &[u32], (w, h): (usize, usize), row: &[u8], live: &[u8], kept: &[u8]) -> Case {
        Case {
            plan: plan.to_vec(),
            w,
            h,
            row: row.to_vec(),
            live: live.to_vec(),
            kept: kept.to_vec(),
        }
    }
}

impl fmt::Display for Case {
    fn fmt(&self, f: &mut fmt::Formatter) -> fmt::Result {
        write!(
            f,
            "arrival by {}, W {}, H {}",
            hex(&self.plan),
            self.w,
            self.h
        )?;
        let parts = [
            ("row", &self.row),
            ("live", &self.live),
            ("kept", &self.kept),
        ];
        for (name, cells) in parts {
            write!(f, "\n{name}: {} bytes", cells.len())?;
            if cells.len() <= 400 {
                write!(f, " {cells:?}")?;
            }
        }
        Ok(())
    }
}
