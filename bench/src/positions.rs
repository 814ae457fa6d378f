//! The normal position of a mask: the library's rule beside a table of the 512 entries, which
//! is what a caller would write instead, and beside the same rule in plain Rust.

use super::{median, ROUNDS};
use musqerpi_tests::library;
use std::hint::black_box;
use std::time::Instant;

type Engine = fn(u16) -> u16;

const NAMES: [&str; 3] = ["library", "table", "rule"];
const ENGINES: [Engine; 3] = [library::normal_position, looked_up, ruled];

/// By rows, of three bits each, and then by columns.
const fn ruled(mask: u16) -> u16 {
    let mut mask = mask % 512;
    if mask == 0 {
        return 0;
    }
    while mask & 0o007 == 0 {
        mask >>= 3;
    }
    while mask & 0o111 == 0 {
        mask >>= 1;
    }
    mask
}

/// The entries, made when the program is compiled.
static TABLE: [u16; 512] = {
    let mut entries = [0; 512];
    let mut mask = 0;
    while mask < 512 {
        entries[mask] = ruled(mask as u16);
        mask += 1;
    }
    entries
};

fn looked_up(mask: u16) -> u16 {
    TABLE[usize::from(mask % 512)]
}

/// All arguments, in scrambled order: 40,503 is odd, so each comes once.
fn arguments() -> Vec<u16> {
    (0..=u16::MAX).map(|n| n.wrapping_mul(40_503)).collect()
}

/// All engines answer the same, whatever the argument.
fn assert_agreement(arguments: &[u16]) {
    for &mask in arguments {
        let answers = ENGINES.map(|engine| engine(mask));
        assert!(
            answers.iter().all(|&answer| answer == answers[0]),
            "argument {mask}: {NAMES:?} answer {answers:?}"
        );
    }
}

/// Nanoseconds a call, in one pass over the arguments.
fn pass(engine: Engine, arguments: &[u16]) -> f64 {
    let start = Instant::now();
    for &mask in arguments {
        black_box(black_box(engine)(black_box(mask)));
    }
    start.elapsed().as_secs_f64() * 1e9 / arguments.len() as f64
}

/// The row: medians of nanoseconds, and the library's time over each other's.
pub fn run() {
    let arguments = arguments();
    assert_agreement(&arguments);
    let mut times = [const { Vec::new() }; 3];
    for round in 0..=ROUNDS {
        for (engine, times) in ENGINES.into_iter().zip(&mut times) {
            let nanos = pass(engine, &arguments);
            if round > 0 {
                times.push(nanos);
            }
        }
    }
    let nanos = times.map(median);
    println!("\nnormal position, all 65,536 arguments, median of {ROUNDS} rounds");
    for (name, time) in NAMES.into_iter().zip(nanos) {
        let over = nanos[0] / time;
        println!("{name:<16}{time:>10.2} ns/call{over:>10.2} library time over it");
    }
}
