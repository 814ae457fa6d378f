//! Times the library beside other implementations, on the same inputs: the calls that
//! answer shapes here, normal position in positions.rs, planning in planning.rs, frames in
//! frames.rs. See README.md.

mod families;
mod fast;
mod frames;
mod planning;
mod positions;
mod quick;
mod rows;
mod search;

use musqerpi_tests::cases::{hex, Call, Case, SHAPE_CALLS};
use musqerpi_tests::lists::Maker;
use musqerpi_tests::{library, reference};
use std::hint::black_box;
use std::time::Instant;

/// Cases in a set, and timed passes over it for each engine.
const CASES: usize = 4000;
const ROUNDS: usize = 41;

type Engine = fn(Call, &[u32], &[u32], (i32, i32), &mut [u32]) -> i64;

const NAMES: [&str; 3] = ["library", "reference", "fast"];
const ENGINES: [Engine; 3] = [library::run, reference::run, fast::run];

fn run(engine: Engine, case: &Case, out: &mut [u32]) -> i64 {
    engine(case.call, &case.a, &case.b, (case.dx, case.dy), out)
}

/// Cases that the call answers with a list.
fn answered(maker: &mut Maker, call: Call) -> Vec<Case> {
    let mut make = || maker.case(call);
    std::iter::repeat_with(&mut make)
        .filter(|case| answer(case) > 0)
        .take(CASES)
        .collect()
}

/// Damaged cases of all calls that are refused.
fn refused(maker: &mut Maker) -> Vec<Case> {
    let mut turn = 0;
    let mut make = || {
        turn += 1;
        maker.damaged(SHAPE_CALLS[turn % SHAPE_CALLS.len()])
    };
    std::iter::repeat_with(&mut make)
        .filter(|case| answer(case) < 0)
        .take(CASES)
        .collect()
}

fn answer(case: &Case) -> i64 {
    run(reference::run, case, &mut vec![0; case.out_n])
}

/// All engines answer and write the same on every case.
fn assert_agreement(cases: &[Case]) {
    for case in cases {
        let mut wanted = vec![0x5555_5555; case.out_n];
        let expected = run(reference::run, case, &mut wanted);
        for (engine, name) in ENGINES.iter().zip(NAMES) {
            let mut out = vec![0x5555_5555; case.out_n];
            let found = run(*engine, case, &mut out);
            let text = format!("{name} answers {found} and {}", hex(&out));
            let same = found == expected && out == wanted;
            assert!(
                same,
                "{case}: {text}, expected {expected} and {}",
                hex(&wanted)
            );
        }
    }
}

/// Words of the lists given, and of the lists written on success.
fn words(cases: &[Case]) -> u64 {
    let read: usize = cases.iter().map(|case| case.a.len() + case.b.len()).sum();
    let written: i64 = cases.iter().map(|case| answer(case).max(0)).sum();
    read as u64 + written as u64
}

/// Seconds for one pass over the cases.
fn pass(engine: Engine, cases: &[Case]) -> f64 {
    let mut buffer = [0u32; 64];
    let start = Instant::now();
    for case in cases {
        let out = &mut buffer[..case.out_n];
        black_box(run(black_box(engine), black_box(case), out));
        black_box(&mut buffer);
    }
    start.elapsed().as_secs_f64()
}

fn median(mut times: Vec<f64>) -> f64 {
    times.sort_by(f64::total_cmp);
    times[times.len() / 2]
}

/// A goal, whether this run meets it, and what was found.
fn print_goal(goal: &str, found: String, met: bool) {
    let verdict = if met { "met" } else { "NOT MET" };
    println!("  {goal:<55}{verdict:<9}{found}");
}

/// The median seconds of each engine, the rounds interleaved after one to warm up.
fn measure(cases: &[Case]) -> [f64; 3] {
    let mut times = [const { Vec::new() }; 3];
    for round in 0..=ROUNDS {
        for (i, engine) in ENGINES.iter().enumerate() {
            let seconds = pass(*engine, cases);
            if round > 0 {
                times[i].push(seconds);
            }
        }
    }
    times.map(median)
}

fn print_row(name: &str, cases: &[Case]) {
    assert_agreement(cases);
    let seconds = measure(cases);
    let words = words(cases) as f64;
    let rates = seconds.map(|time| format!("{:>12.2}", words / time / 1e6));
    let nanos = seconds.map(|time| format!("{:>10.0}", time / cases.len() as f64 * 1e9));
    let (by_reference, by_fast) = (seconds[0] / seconds[1], seconds[0] / seconds[2]);
    println!(
        "{name:<16}{}{}{:>14.3}{:>12.2}",
        rates.concat(),
        nanos.concat(),
        by_reference,
        by_fast
    );
}

/// The table of the calls that answer shapes.
fn shape_calls() {
    let mut maker = Maker::new(2024);
    println!("{CASES} cases a row, median of {ROUNDS} rounds");
    println!(
        "{:<16}{:^36}{:^30}{:^26}",
        "", "million words/s", "ns/call", "library time over"
    );
    let (rate, nanos) = (
        NAMES.map(|n| format!("{n:>12}")),
        NAMES.map(|n| format!("{n:>10}")),
    );
    println!(
        "{:<16}{}{}{:>14}{:>12}",
        "call",
        rate.concat(),
        nanos.concat(),
        "reference",
        "fast"
    );
    for call in SHAPE_CALLS {
        let cases = answered(&mut maker, call);
        print_row(call.name(), &cases);
    }
    let cases = refused(&mut maker);
    print_row("refused, mixed", &cases);
}

fn main() {
    match std::env::args().nth(1).as_deref() {
        None => {
            shape_calls();
            positions::run();
        }
        Some("planning") => planning::run(),
        Some("frames") => frames::run(),
        Some(other) => {
            eprintln!("{other}: the tables with a name are planning and frames");
            std::process::exit(2);
        }
    }
}
