//! The hard shapes of tests/data/, one row of the table a shape.

use super::{after, answer, measure, spread, totals, Engine, LIBRARY, PORT};
use musqerpi_tests::hard::{rows, Row};
use musqerpi_tests::reference::plans::to_plan_list;
use musqerpi_tests::reference::points::of_shape;

/// What came of the hard shapes.
pub struct Hard {
    pub rows: usize,
    pub right: usize,
    /// Seconds of library and port on each row that the port finished.
    pub times: Vec<[f64; 2]>,
}

/// The engine answers and writes what the row says.
fn is_right(engine: Engine, row: &Row) -> bool {
    let (found, out) = answer(engine, &row.shape);
    let mut wanted = [0x5555_5555; 32];
    let expected = match &row.masks {
        None => -10,
        Some(masks) => {
            let list = to_plan_list(&of_shape(&row.shape), masks);
            wanted[..list.len()].copy_from_slice(&list);
            list.len() as i64
        }
    };
    found == expected && out == wanted
}

/// One row; the tests, and whether both are right and their seconds if the port finished.
fn print_row(row: &Row) -> (u64, Option<(bool, [f64; 2])>) {
    let answer = match &row.masks {
        None => "refused".to_string(),
        Some(masks) => format!("{} stages", masks.len()),
    };
    let effort = after(&row.shape);
    let (nodes, tests) = (effort.nodes, effort.tests);
    print!("{:>4}{answer:>10}", row.number);
    if effort.gave_up {
        println!("{:>9}{nodes:>9}{tests:>9}", "given up");
        return (tests, None);
    }
    let right = is_right(LIBRARY, row) && is_right(PORT, row);
    let times = measure(&row.shape, tests);
    println!(
        "{:>9}{nodes:>9}{tests:>9}{:>13.2}{:>10.2}{:>9.2}",
        if right { "right" } else { "WRONG" },
        times[0] * 1e3,
        times[1] * 1e3,
        times[0] / times[1]
    );
    (tests, Some((right, times)))
}

/// The table and its summary.
pub fn run() -> Hard {
    println!(
        "{:>4}{:>10}{:>9}{:>9}{:>9}{:>13}{:>10}{:>9}",
        "row", "answer", "", "nodes", "tests", "library, ms", "port, ms", "ratio"
    );
    let rows = rows();
    let tried: Vec<_> = rows.iter().map(print_row).collect();
    let finished: Vec<(bool, [f64; 2])> = tried.iter().filter_map(|row| row.1).collect();
    let hard = Hard {
        rows: rows.len(),
        right: finished.iter().filter(|row| row.0).count(),
        times: finished.iter().map(|row| row.1).collect(),
    };
    print_summary(&hard, tried.iter().map(|row| row.0 as f64).collect());
    hard
}

fn print_summary(hard: &Hard, tests: Vec<f64>) {
    println!("{} of {} right", hard.right, hard.rows);
    println!("median, 99th percentile and worst");
    let [median, high, worst] = spread(tests);
    println!("  tests        {median} / {high} / {worst}");
    if hard.times.is_empty() {
        return;
    }
    for (engine, name) in ["library, ms", "port, ms"].iter().enumerate() {
        let times = hard.times.iter().map(|pair| pair[engine] * 1e3);
        let [median, high, worst] = spread(times.collect());
        println!("  {name:<13}{median:.2} / {high:.2} / {worst:.2}");
    }
    let sums = totals(&hard.times);
    println!(
        "all: library {:.3} s, port {:.3} s, ratio {:.2}",
        sums[0],
        sums[1],
        sums[0] / sums[1]
    );
}
