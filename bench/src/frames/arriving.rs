//! Rows that arrive in a live frame, the dilation kept beside it brought up to date. The
//! rows are those of a picture, one after the other and then from the first on again, so
//! that the frames stay as full as they are.

use super::operations::{disk, four_thin, window, Plan};
use super::table::{asked, Engine, Lent, Pace, Row, Table};
use super::{pictures, GREATEST};
use musqerpi_tests::operations::library::{operate, part};
use musqerpi_tests::operations::Op;
use musqerpi_tests::rolling::library;
use std::cell::RefCell;
use std::hint::black_box;

mod plain;

const PACE: Pace = Pace {
    rounds: 101,
    times: 8,
    decimals: 2,
};

/// Arrivals that are compared: from free frames on, until the first rows have left again,
/// and then with a kept frame that is wrong.
const FROM_FREE: usize = 300;
const WRONG: usize = 48;

/// An arrival, by the library or not.
type Arrive = fn(&[u32], (usize, usize), &[u8], &mut [u8], &mut [u8]) -> i64;

/// The rows that arrive, which of them is next, and both frames, the kept one right after
/// the live one.
struct Fall {
    memory: Lent,
    next: usize,
}

impl Fall {
    /// Both frames are free.
    fn new(rows: &[u8]) -> Fall {
        let mut memory = Lent::apart(rows, 2 * GREATEST.cells());
        memory.parts().1.fill(0);
        Fall { memory, next: 0 }
    }

    /// The row that is next, and both frames.
    fn parts(&mut self) -> (&[u8], &mut [u8], &mut [u8]) {
        let (rows, frames) = self.memory.parts();
        let (live, kept) = frames.split_at_mut(GREATEST.cells());
        let start = self.next * GREATEST.w;
        (&rows[start..start + GREATEST.w], live, kept)
    }

    fn take(&mut self, arrive: Arrive, plan: &[u32]) {
        let (row, live, kept) = self.parts();
        let answer = arrive(plan, black_box(GREATEST.pair()), row, live, kept);
        assert_eq!(answer, 0, "an arrival");
        self.next = (self.next + 1) % GREATEST.h;
    }

    /// Both frames, the live one first.
    fn frames(&mut self) -> &mut [u8] {
        self.memory.parts().1
    }

    /// The state of another that has the same rows.
    fn set(&mut self, other: &mut Fall) {
        self.frames().copy_from_slice(other.frames());
        self.next = other.next;
    }
}

/// Both frames if they were asked for.
fn frames(read: bool, live: &[u8], kept: &[u8]) -> Vec<u8> {
    [asked(read, live), asked(read, kept)].concat()
}

/// Dilates a frame in these images, the second right after the first.
fn dilate<'a>(plan: &[u32], live: &[u8], images: &'a mut [u8]) -> &'a [u8] {
    let (pair, mut image) = (GREATEST.pair(), 0);
    let (first, second) = images.split_at_mut(images.len() / 2);
    let stages = operate(Op::Dilate, plan, pair, live, first, second);
    assert_eq!(stages, plan.len() as i64 - 2, "a dilation");
    let length = part(stages, pair, first, second, &mut image);
    let from = if image == 1 { first } else { second };
    &from[..length as usize]
}

/// Two images that start with a page.
fn images() -> Lent {
    Lent::new(&[], 0, 2 * GREATEST.grid().next_multiple_of(64))
}

/// The library and plain Rust give the same frames at each arrival: from free frames on,
/// where the kept one is the dilation of the live one, and then with a kept one that was
/// made wrong. Answers the frames as they were before that, for all engines to start with.
fn assert_arrivals(name: &str, plan: &[u32], rows: &[u8]) -> Fall {
    let (mut ours, mut other, mut images) = (Fall::new(rows), Fall::new(rows), images());
    // Both take a row; answers whether the kept frame is the dilation then.
    let mut take = |ours: &mut Fall, other: &mut Fall| {
        ours.take(library::arrive, plan);
        other.take(plain::arrive, plan);
        let same = ours.frames() == other.frames();
        assert!(same, "{name}: plain and the library differ");
        let (_, live, kept) = ours.parts();
        dilate(plan, live, images.parts().1) == kept
    };
    for _ in 0..FROM_FREE {
        let right = take(&mut ours, &mut other);
        assert!(right, "{name}: the kept frame is no dilation");
    }
    let mut start = Fall::new(rows);
    start.set(&mut ours);
    for fall in [&mut ours, &mut other] {
        fall.parts().2.iter_mut().for_each(|cell| *cell ^= 1);
    }
    for _ in 0..WRONG {
        let right = take(&mut ours, &mut other);
        assert!(!right, "{name}: a kept frame that was wrong is right");
    }
    start
}

/// An engine that takes rows. Where frames are asked for it starts anew, so that all do
/// with the same.
fn taking<'a>(
    name: &'static str,
    arrive: Arrive,
    plan: &'a [u32],
    fall: &'a RefCell<Fall>,
    start: &'a RefCell<Fall>,
) -> Engine<'a> {
    Engine::new(name, move |read| {
        let mut fall = fall.borrow_mut();
        if read {
            fall.set(&mut start.borrow_mut());
        }
        fall.take(arrive, plan);
        let (_, live, kept) = fall.parts();
        frames(read, live, black_box(kept))
    })
}

/// A dilation of the live frame as it stands.
fn dilating<'a>(plan: &'a [u32], fall: &'a RefCell<Fall>) -> Engine<'a> {
    let mut images = images();
    Engine::new("dilate", move |read| {
        let mut fall = fall.borrow_mut();
        let (_, live, _) = fall.parts();
        let part = dilate(plan, live, images.parts().1);
        frames(read, live, black_box(part))
    })
}

/// Looks for a cell above 1 in both frames and the row, and moves both frames.
fn moves_and_looks<'a>(mut fall: Fall) -> Engine<'a> {
    let engine = Engine::new("moves and looks", move |read| {
        let (row, live, kept) = fall.parts();
        let bad = [&*live, &*kept, row].map(|cells| plain::is_bad(black_box(cells)));
        assert_eq!(bad, [false; 3], "cells above 1");
        let w = black_box(GREATEST.w);
        for frame in [&mut *live, &mut *kept] {
            black_box(frame).copy_within(w.., 0);
        }
        frames(read, live, kept)
    });
    engine.uncompared()
}

/// The row of one plan.
fn row(table: &mut Table, (name, plan): &Plan) -> Row {
    let rows = pictures::frame(GREATEST);
    let start = RefCell::new(assert_arrivals(name, plan, &rows));
    let [ours, other] = [0; 2].map(|_| RefCell::new(Fall::new(&rows)));
    let mut moving = Fall::new(&rows);
    moving.set(&mut start.borrow_mut());
    let engines = vec![
        taking("library", library::arrive, plan, &ours, &start),
        dilating(plan, &ours),
        moves_and_looks(moving),
        taking("plain", plain::arrive, plan, &other, &start),
    ];
    table.row(name.to_string(), engines)
}

/// The rows by thin stages, and by thick shapes.
pub fn run() -> (Vec<Row>, Vec<Row>) {
    let mut table = Table::new("arrival", GREATEST, PACE);
    let thin = [("4 stages, thin", four_thin())];
    let thick = [
        ("4 stages, disk, centre", disk((4, 4))),
        ("4 stages, disk, corner", disk((0, 0))),
        ("8 stages, window", window()),
    ];
    let mut rows = |plans: &[Plan]| plans.iter().map(|plan| row(&mut table, plan)).collect();
    (rows(&thin), rows(&thick))
}
