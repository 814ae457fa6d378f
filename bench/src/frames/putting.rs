//! Putting a frame into the grid of an image, of either kind. The image stands right after
//! the frame or far from it. All engines of a row work on the same bytes.

use super::builds::BUILDS;
use super::table::{asked, Engine, Lent, Pace, Row, Table, PAGE};
use super::{among, pictures, rust, GREATEST};
use musqerpi_tests::frames::{Around, AROUND};
use std::cell::RefCell;
use std::hint::black_box;

const PACE: Pace = Pace {
    rounds: 101,
    times: 32,
    decimals: 2,
};

/// Names, and the bytes between frame and image: none, or more than W × (H + 15). They are
/// whole pages, so the rows differ in nothing else.
const PLACES: [(&str, usize); 2] = [
    ("image right after the frame", 0),
    ("image elsewhere", 32 * PAGE),
];

/// Works on frame and image.
fn on_both<'a>(
    name: &'static str,
    memory: &'a RefCell<Lent>,
    put: impl Fn(&[u8], &mut [u8]) + 'a,
) -> Engine<'a> {
    Engine::new(name, move |read| {
        let mut memory = memory.borrow_mut();
        let (frame, image) = memory.parts();
        if read {
            // What the engine before left there may not stand for this one's work.
            image.fill(7);
        }
        put(frame, image);
        asked(read, black_box(image))
    })
}

fn engines(memory: &RefCell<Lent>, around: Around) -> Vec<Engine<'_>> {
    let (w, h) = GREATEST.pair();
    let mut engines = Vec::new();
    for build in BUILDS.iter().filter(|build| build.knows(around)) {
        engines.push(on_both(build.name, memory, move |frame, image| {
            assert_eq!((build.put)(w, h, frame, around, image), 0, "putting");
        }));
    }
    engines.push(on_both("fill and copy", memory, move |frame, image| {
        rust::put(GREATEST, frame, around, image)
    }));
    let copy = |frame: &[u8], image: &mut [u8]| image[..frame.len()].copy_from_slice(frame);
    engines.push(on_both("copy", memory, copy).uncompared());
    engines
}

pub fn run() -> Vec<Row> {
    let mut table = Table::new("putting", GREATEST, PACE);
    let frame = pictures::frame(GREATEST);
    let mut rows = Vec::new();
    for around in AROUND {
        for (name, between) in PLACES {
            let memory = RefCell::new(Lent::new(&frame, between, GREATEST.grid()));
            let name = format!("{name}{}", among(around));
            rows.push(table.row(name, engines(&memory, around)));
        }
    }
    rows
}
