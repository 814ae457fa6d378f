//! The load in ten-thousandths, of the frames whose load is counted. All engines of a row
//! read the same bytes.

use super::load::{FRAMES, PACE};
use super::table::{Engine, Lent, Row, Table};
use super::{pictures, rust, GREATEST};
use musqerpi_tests::{frames, shares};
use std::hint::black_box;

/// Quotient and remainder of so many occupied cells.
fn divided(occupied: i64) -> (i64, u32) {
    let (all, cells) = (10_000 * occupied, GREATEST.cells() as i64);
    (all / cells, (all % cells) as u32)
}

/// Quotient and remainder in bytes.
fn bytes_of((quotient, remainder): (i64, u32)) -> Vec<u8> {
    let quotient = quotient.to_le_bytes().into_iter();
    quotient.chain(remainder.to_le_bytes()).collect()
}

/// Works out quotient and remainder.
fn sharing<'a>(
    name: &'static str,
    frame: &'a [u8],
    share: impl Fn(&[u8]) -> (i64, u32) + 'a,
) -> Engine<'a> {
    Engine::new(name, move |read| {
        let found = black_box(share(black_box(frame)));
        match read {
            true => bytes_of(found),
            false => Vec::new(),
        }
    })
}

/// The load alone, which is divided only where it is compared.
fn counting(frame: &[u8]) -> Engine<'_> {
    let (w, h) = GREATEST.pair();
    Engine::new("load", move |read| {
        let counted = black_box(frames::library::load(w, h, black_box(frame)));
        match read {
            true => bytes_of(divided(counted)),
            false => Vec::new(),
        }
    })
}

fn engines(frame: &[u8]) -> Vec<Engine<'_>> {
    let library = |frame: &[u8]| {
        let mut remainder = 0;
        let quotient = shares::library::share(GREATEST.pair(), frame, &mut remainder);
        (quotient, remainder)
    };
    vec![
        sharing("library", frame, library),
        counting(frame),
        sharing("chunks", frame, |frame| divided(rust::chunks(frame))),
        sharing("filter", frame, |frame| divided(rust::filter(frame))),
    ]
}

pub fn run() -> Vec<Row> {
    let mut table = Table::new("share", GREATEST, PACE);
    let row = |(name, of_64): (&str, usize)| {
        let mut memory = Lent::new(&pictures::scattered(GREATEST, of_64), 0, 0);
        let (frame, _) = memory.parts();
        table.row(name.to_string(), engines(frame))
    };
    FRAMES.into_iter().map(row).collect()
}
