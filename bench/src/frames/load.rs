//! The load of a frame with few, half and all cells occupied. All engines of a row read
//! the same bytes.

use super::builds::{Build, BUILDS};
use super::table::{Engine, Lent, Pace, Row, Table};
use super::{pictures, rust, GREATEST};
use std::hint::black_box;

pub const PACE: Pace = Pace {
    rounds: 101,
    times: 32,
    decimals: 2,
};

/// Names, and how many of 64 cells are occupied.
pub const FRAMES: [(&str, usize); 3] = [
    ("few occupied", 1),
    ("half occupied", 32),
    ("all occupied", 64),
];

/// Counts the occupied cells.
fn counting<'a>(
    name: &'static str,
    frame: &'a [u8],
    count: impl Fn(&[u8]) -> i64 + 'a,
) -> Engine<'a> {
    Engine::new(name, move |read| {
        let counted = black_box(count(black_box(frame)));
        match read {
            true => counted.to_le_bytes().to_vec(),
            false => Vec::new(),
        }
    })
}

fn engines(frame: &[u8]) -> Vec<Engine<'_>> {
    let (w, h) = GREATEST.pair();
    let of_build =
        |build: &'static Build| counting(build.name, frame, move |frame| (build.load)(w, h, frame));
    let mut engines: Vec<Engine> = BUILDS.iter().map(of_build).collect();
    engines.push(counting("chunks", frame, rust::chunks));
    engines.push(counting("filter", frame, rust::filter));
    engines
}

pub fn run() -> Vec<Row> {
    let mut table = Table::new("load", GREATEST, PACE);
    let row = |(name, of_64): (&str, usize)| {
        let mut memory = Lent::new(&pictures::scattered(GREATEST, of_64), 0, 0);
        let (frame, _) = memory.parts();
        table.row(name.to_string(), engines(frame))
    };
    FRAMES.into_iter().map(row).collect()
}
