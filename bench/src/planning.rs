//! Planning: what the plain search took and the quick one takes, and the library's time
//! beside the port's; by families, then on the hard shapes, then the goals.

use crate::fast;
use crate::quick::Quick;
use crate::search::{End, Search};
use musqerpi_tests::library;
use std::hint::black_box;
use std::time::Instant;

mod by_family;
mod goals;
mod hard;

/// Tests of a stage after which the plain search gives up, and the quick one. The library
/// has no limit, so it is called only on the shapes that the quick one finished.
const PLAIN_LIMIT: u64 = 50_000;
const QUICK_LIMIT: u64 = 1_000_000;

/// Timed calls of each engine on a shape, and on one whose search is long.
const ROUNDS: usize = 9;
const LONG_ROUNDS: usize = 3;
const LONG: u64 = 5_000;

/// What a search took, until its end or until it gave up.
#[derive(Clone, Copy)]
struct Effort {
    nodes: u64,
    tests: u64,
    gave_up: bool,
    /// Of this one run; library and port are timed apart.
    seconds: f64,
}

/// The plain search of a shape list.
fn before(shape: &[u32]) -> Effort {
    let start = Instant::now();
    let mut search = Search::new(&fast::rows_of(shape), PLAIN_LIMIT);
    let gave_up = search.run() == End::GaveUp;
    let seconds = start.elapsed().as_secs_f64();
    let (nodes, tests) = (search.nodes, search.tests);
    Effort {
        nodes,
        tests,
        gave_up,
        seconds,
    }
}

/// The quick one.
fn after(shape: &[u32]) -> Effort {
    let start = Instant::now();
    let mut search = Quick::new(&fast::rows_of(shape), QUICK_LIMIT);
    let gave_up = search.run() == End::GaveUp;
    let seconds = start.elapsed().as_secs_f64();
    let (nodes, tests) = (search.nodes, search.tests);
    Effort {
        nodes,
        tests,
        gave_up,
        seconds,
    }
}

type Engine = fn(&[u32], &mut [u32]) -> i64;

const LIBRARY: Engine = library::plan;
const PORT: Engine = fast::plan;

/// What an engine answers, and its output over a pattern.
fn answer(engine: Engine, shape: &[u32]) -> (i64, [u32; 32]) {
    let mut out = [0x5555_5555; 32];
    (engine(shape, &mut out), out)
}

/// Seconds of one call.
fn time(engine: Engine, shape: &[u32]) -> f64 {
    let mut out = [0u32; 32];
    let start = Instant::now();
    black_box(black_box(engine)(black_box(shape), &mut out));
    let seconds = start.elapsed().as_secs_f64();
    black_box(&mut out);
    seconds
}

/// The median seconds of library and port on a shape whose search makes so many tests,
/// called in turn. A first call of each, to warm up, isn't counted; it was made when they
/// were compared.
fn measure(shape: &[u32], tests: u64) -> [f64; 2] {
    let rounds = if tests < LONG { ROUNDS } else { LONG_ROUNDS };
    let mut times = [const { Vec::new() }; 2];
    for _ in 0..rounds {
        times[0].push(time(LIBRARY, shape));
        times[1].push(time(PORT, shape));
    }
    times.map(crate::median)
}

/// Median, 99th percentile and worst of values that aren't none.
fn spread(mut values: Vec<f64>) -> [f64; 3] {
    values.sort_by(f64::total_cmp);
    let n = values.len();
    [n / 2, (n * 99).div_ceil(100) - 1, n - 1].map(|place| values[place])
}

/// Library and port summed over all shapes.
fn totals(times: &[[f64; 2]]) -> [f64; 2] {
    let sum = |engine: usize| times.iter().map(|pair| pair[engine]).sum();
    [sum(0), sum(1)]
}

pub fn run() {
    println!("plain search stopped at {PLAIN_LIMIT} tests, quick one at {QUICK_LIMIT}; median, 99th percentile and worst");
    let families = by_family::run();
    println!();
    let hard = hard::run();
    println!();
    goals::print(&families, &hard);
}
