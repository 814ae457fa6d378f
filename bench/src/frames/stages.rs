//! Single stages: one grid through one mask, by dilation and by erosion, in either kind of
//! grid.

use super::builds::BUILDS;
use super::kernel::Kernel;
use super::table::{asked, Engine, Lent, Pace, Row, Table};
use super::{among, pictures, rust, Size, GREATEST};
use musqerpi_tests::frames::{stage_word, Around, Mode};
use std::hint::black_box;

/// Masks of 2, 5, 8 and 9 cells.
const MASKS: [u32; 14] = [
    3, 5, 9, 17, 257, // two cells
    31, 79, 186, 341, // five: a corner, an angle, a cross, a slanted cross
    255, 495, 507, 510, // eight: all but one
    511,
];

/// Of 2, 5 and 9 cells, for the second kind of grid.
const MASKS_AMONG_1S: [u32; 3] = [3, 186, 511];

pub const PACE: Pace = Pace {
    rounds: 101,
    times: 8,
    decimals: 1,
};

/// One stage, and the grid that it is taken through.
struct Case {
    size: Size,
    mask: u32,
    mode: Mode,
    kernel: Kernel,
    from: Vec<u8>,
}

impl Case {
    fn new(size: Size, mask: u32, mode: Mode) -> Case {
        Case {
            size,
            mask,
            mode,
            kernel: Kernel::of_mask(mask),
            from: pictures::grid(size, mode),
        }
    }
}

/// Takes a copy of the case's grid into another.
fn into_grid<'a>(
    name: &'static str,
    case: &'a Case,
    apply: impl Fn(&[u8], &mut [u8]) + 'a,
) -> Engine<'a> {
    let mut memory = Lent::apart(&case.from, case.size.grid());
    Engine::new(name, move |read| {
        let (from, to) = memory.parts();
        apply(from, to);
        asked(read, black_box(to))
    })
}

fn engines(case: &Case) -> Vec<Engine<'_>> {
    let (mask, mode, kernel) = (case.mask, case.mode, &case.kernel);
    let (word, size, width) = (stage_word(mask), case.size.pair(), case.size.width());
    let mut engines = Vec::new();
    for build in BUILDS.iter().filter(|build| build.knows(mode.around)) {
        engines.push(into_grid(build.name, case, move |from, to| {
            let answer = (build.stage)(word, mode, size, from, to);
            assert_eq!(answer, 0, "mask {mask}");
        }));
    }
    #[cfg(feature = "opencv")]
    engines.push(into_grid("OpenCV", case, move |from, to| {
        super::other::opencv::apply(kernel, mode, width, from, to)
    }));
    #[cfg(feature = "leptonica")]
    if super::other::leptonica::has(mode) {
        engines.push(leptonica(case));
    }
    engines.push(into_grid("bytes", case, move |from, to| {
        rust::bytes(mask, mode, width, from, to)
    }));
    engines.push(into_grid("direct", case, move |from, to| {
        rust::direct(kernel, mode, width, from, to)
    }));
    let copy = into_grid("copy", case, |from, to| to.copy_from_slice(from));
    engines.push(copy.uncompared());
    engines
}

/// The images are made before, and no cell is turned into a bit while time is taken.
#[cfg(feature = "leptonica")]
fn leptonica(case: &Case) -> Engine<'_> {
    use super::other::leptonica::{apply, Image, Sel};
    let (grid, width) = (case.size.grid(), case.size.width());
    let (from, sel) = (Image::of(&case.from, width), Sel::of(&case.kernel));
    let mut to = Image::of(&vec![0; grid], width);
    Engine::new("leptonica", move |read| {
        apply(&sel, case.mode, &from, &mut to);
        match read {
            true => to.cells(grid, width),
            false => Vec::new(),
        }
    })
}

/// The rows of these masks in one kind of grid, by dilation and by erosion.
pub fn rows(table: &mut Table, masks: &[u32], around: Around) -> Vec<Row> {
    let mut rows = Vec::new();
    for (erode, what) in [(false, "dilation"), (true, "erosion")] {
        for &mask in masks {
            let case = Case::new(table.size, mask, Mode { erode, around });
            let cells = mask.count_ones();
            let name = format!("{what} by {mask}, {cells} cells{}", among(around));
            rows.push(table.row(name, engines(&case)));
        }
    }
    rows
}

pub fn run() -> Vec<Row> {
    let mut table = Table::new("stage", GREATEST, PACE);
    let mut all = rows(&mut table, &MASKS, Around::Free);
    all.extend(rows(&mut table, &MASKS_AMONG_1S, Around::Occupied));
    all
}
