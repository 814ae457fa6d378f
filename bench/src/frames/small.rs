//! Small frames, where what a call does but once counts for more: single stages and
//! operations by the same engines.

use super::operations::{self, Plan};
use super::stages;
use super::table::{Pace, Row, Table};
use super::Size;
use musqerpi_tests::frames::Around;
use musqerpi_tests::operations::plan_list;

pub const LEAST: Size = Size { w: 8, h: 8 };
pub const MIDDLE: Size = Size { w: 64, h: 48 };

/// A call takes a tenth of a microsecond to some, so a round's time is far above what
/// the clock can tell.
const PACE: Pace = Pace {
    rounds: 61,
    times: 256,
    decimals: 3,
};

/// Engines that are timed here; the others are only compared.
const TIMED: &[&str] = &["library", "before", "OpenCV", "OpenCV stages"];

/// A thin one and the thickest.
const MASKS: [u32; 2] = [3, 511];

fn plans() -> [Plan; 4] {
    [
        ("0 stages", plan_list((0, 0), &[])),
        ("1 stage, 2 cells", plan_list((0, 0), &[17])),
        ("1 stage, 9 cells", plan_list((-1, -1), &[511])),
        ("4 stages, thin", plan_list((-1, -1), &[3, 5, 9, 65])),
    ]
}

/// Rows of single stages, and of operations.
pub fn run() -> (Vec<Row>, Vec<Row>) {
    let (mut singles, mut wholes) = (Vec::new(), Vec::new());
    for size in [LEAST, MIDDLE] {
        let mut table = Table::new("stage", size, PACE).only(TIMED);
        singles.extend(stages::rows(&mut table, &MASKS, Around::Free));
    }
    for size in [LEAST, MIDDLE] {
        let mut table = Table::new("operation", size, PACE).only(TIMED);
        let rows = operations::rows(&mut table, &plans());
        wholes.extend(rows.into_iter().map(|one| one.row));
    }
    (singles, wholes)
}
