//! The goals of frames, each with the worst of its rows in this run. A goal whose engine
//! wasn't run is left out.

use super::operations::Whole;
use super::small::{LEAST, MIDDLE};
use super::table::Row;
use super::unmeasured::Single;
use super::Size;
use crate::print_goal;

/// All rows of a run, by table.
pub struct Rows {
    pub puts: Vec<Row>,
    pub loads: Vec<Row>,
    pub shares: Vec<Row>,
    pub stages: Vec<Row>,
    pub operations: Vec<Whole>,
    pub thin_arrivals: Vec<Row>,
    pub thick_arrivals: Vec<Row>,
    pub small_stages: Vec<Row>,
    pub small_operations: Vec<Row>,
    pub stages_with_holes: Vec<Single>,
    pub operations_with_holes: Vec<Row>,
}

/// Prints the goal with the greatest value, if there is one, and the row that has it.
fn print_worst<'a>(
    goal: &str,
    limit: f64,
    unit: &str,
    values: impl Iterator<Item = (f64, &'a Row)>,
) {
    let Some((worst, row)) = values.max_by(|a, b| a.0.total_cmp(&b.0)) else {
        return;
    };
    let found = format!("{worst:.3}{unit} at {}, {}", row.size, row.name);
    print_goal(goal, found, worst <= limit);
}

/// The library's time over this engine's is at most the limit at each of the rows. The limit
/// is printed with all its decimals, and one at least.
fn at_most<'a>(what: &str, limit: f64, engine: &str, rows: impl Iterator<Item = &'a Row>) {
    let goal = format!("{what} at most {limit:?} of {engine}");
    let ratios = rows.filter_map(|row| Some((row.over(engine)?, row)));
    print_worst(&goal, limit, "", ratios);
}

/// The rows of one size.
fn of(rows: &[Row], size: Size) -> impl Iterator<Item = &Row> {
    let same = move |row: &&Row| row.size.pair() == size.pair();
    rows.iter().filter(same)
}

pub fn print(rows: &Rows) {
    println!("goals");
    let operations = rows.operations.iter();
    let all = operations.clone().map(|one| &one.row);
    at_most("operations", 0.5, "OpenCV stages", all);
    let long = operations.clone().filter(|one| one.stages >= 4);
    let long = long.map(|one| &one.row);
    at_most("from 4 stages", 1.0, "lept. stages", long);
    let all = operations.map(|one| &one.row);
    at_most("operations", 1.1, "before", all);
    at_most("stages", 0.9, "OpenCV", rows.stages.iter());
    at_most("stages", 1.1, "before", rows.stages.iter());
    let small = rows.small_operations.iter();
    at_most("small operations", 1.1, "before", small);
    let what = format!("stages, {MIDDLE},");
    at_most(&what, 1.1, "before", of(&rows.small_stages, MIDDLE));
    let times = of(&rows.small_stages, LEAST).map(|row| (row.microseconds(), row));
    let goal = format!("stages, {LEAST}, at most 0.5 us");
    print_worst(&goal, 0.5, " us", times);
    at_most("putting", 1.2, "fill and copy", rows.puts.iter());
    at_most("load", 1.5, "chunks", rows.loads.iter());
    at_most("load", 1.1, "before", rows.loads.iter());
    at_most("share", 1.2, "load", rows.shares.iter());
    let (thin, thick) = (rows.thin_arrivals.iter(), rows.thick_arrivals.iter());
    at_most("arrivals, thin,", 0.7, "dilate", thin);
    at_most("arrivals, thick,", 1.0, "dilate", thick);
    print_with_holes(rows);
}

/// The goals of frames and grids with cells that were not measured; `before` works on the
/// same cells without holes.
fn print_with_holes(rows: &Rows) {
    let operations = rows.operations_with_holes.iter();
    at_most("operations, 2s,", 2.2, "before", operations.clone());
    at_most("operations, 2s,", 1.0, "OpenCV stages", operations);
    let stages = rows.stages_with_holes.iter();
    let all = stages.clone().map(|one| &one.row);
    at_most("stages, 2s,", 2.2, "before", all);
    let thick = stages.clone().filter(|one| one.cells >= 5);
    let thick = thick.map(|one| &one.row);
    at_most("stages of 5 cells or more, 2s,", 1.0, "OpenCV", thick);
    let thin = stages.filter(|one| one.cells < 5).map(|one| &one.row);
    at_most("stages of 2 cells, 2s,", 1.6, "OpenCV", thin);
}
