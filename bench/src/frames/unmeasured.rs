//! Frames and grids with cells that were not measured, one of them or half: the library
//! beside itself and the build before on the same cells without holes, and beside OpenCV,
//! stage by stage, on bytes recoded so that its greatest and least are right. Recoding isn't
//! timed.

use super::builds::{Build, BUILDS};
#[cfg(feature = "opencv")]
use super::kernel::Kernel;
use super::operations::{self, size_of};
use super::pictures::{self, Holes};
use super::stages;
use super::table::{asked_any, Engine, Lent, Row, Table};
use super::{Size, GREATEST};
use musqerpi_tests::frames::{stage_word, Around, Mode};
use musqerpi_tests::operations::{Case, OPS};
#[cfg(feature = "opencv")]
use std::hint::black_box;

const HOLES: [Holes; 2] = [Holes::One, Holes::Half];

/// Masks of 2, 5 and 9 cells.
const MASKS: [u32; 4] = [3, 17, 186, 511];

/// The values in their order: 0, 2, 1 become 0, 1, 2.
#[cfg(feature = "opencv")]
fn recoded(cells: &[u8]) -> Vec<u8> {
    cells.iter().map(|&cell| [0, 2, 1][cell as usize]).collect()
}

/// An operation of a build on these cells, and the call that hands back its part.
fn of_build<'a>(
    name: &'static str,
    build: &'static Build,
    case: &'a Case,
    cells: &[u8],
) -> Engine<'a> {
    let (pair, grid) = (size_of(case).pair(), size_of(case).grid());
    let next = grid.next_multiple_of(64);
    let mut memory = Lent::apart(cells, next + grid);
    Engine::new(name, move |read| {
        let (frame, images) = memory.parts();
        let (first, second) = images.split_at_mut(next);
        let first = &mut first[..grid];
        let stages = (build.operate)(case.op, &case.plan, pair, frame, first, second);
        assert!(stages >= 0, "{:?}", case.op);
        let mut image = 0;
        let length = (build.part)(stages, pair, first, second, &mut image);
        let from = if image == 1 { first } else { second };
        asked_any(read, &from[..length as usize])
    })
}

/// Puts, goes through the stages and cuts, all on recoded bytes.
#[cfg(feature = "opencv")]
fn of_opencv(case: &Case) -> Engine<'_> {
    use super::{operations::modes, other::opencv::apply_among, rust};
    let masks = case.plan[2..].iter().map(|word| word & 0x1ff);
    let kernels: Vec<Kernel> = masks.map(Kernel::of_mask).collect();
    let (size, frame) = (size_of(case), recoded(&case.frame));
    let (around, outside) = (case.op.around(), 2 * case.op.around().cell());
    let (mut from, mut to) = (vec![7; size.grid()], vec![7; size.grid()]);
    let mut cells = vec![7; size.cells()];
    Engine::new("OpenCV stages", move |read| {
        rust::put_among(size, &frame, around, outside, &mut from);
        for mode in modes(case.op) {
            for kernel in &kernels {
                let shape = (mode.erode, outside, size.width());
                apply_among(kernel, shape, &from, &mut to);
                std::mem::swap(&mut from, &mut to);
            }
        }
        operations::cut_among(case, outside, &from, &mut cells);
        asked_any(read, &if read { recoded(&cells) } else { Vec::new() })
    })
}

/// The rows of all operations by these plans, with holes in the frame.
fn operation_rows(table: &mut Table) -> Vec<Row> {
    let (size, measured) = (table.size, pictures::frame(table.size));
    let mut rows = Vec::new();
    for holes in HOLES {
        let frame = holes.into(&measured);
        for op in OPS {
            for (name, plan) in operations::plans() {
                let images = (size.grid(), size.grid());
                let case = Case::new(op, &plan, size.pair(), &frame, images);
                let library = &BUILDS[0];
                let mut engines = vec![
                    of_build(library.name, library, &case, &frame),
                    of_build("measured", library, &case, &measured).uncompared(),
                ];
                for build in &BUILDS[1..] {
                    engines.push(of_build(build.name, build, &case, &measured).uncompared());
                }
                #[cfg(feature = "opencv")]
                engines.push(of_opencv(&case));
                rows.push(table.row(format!("{op:?}, {name}, {}", holes.name()), engines));
            }
        }
    }
    rows
}

/// A build's single stage on this grid.
fn stage_of<'a>(
    name: &'static str,
    build: &'static Build,
    (word, mode, size): (u32, Mode, Size),
    grid: &[u8],
) -> Engine<'a> {
    let mut memory = Lent::apart(grid, size.grid());
    Engine::new(name, move |read| {
        let (from, to) = memory.parts();
        let answer = (build.stage)(word, mode, size.pair(), from, to);
        assert_eq!(answer, 0, "word {word:x}");
        asked_any(read, to)
    })
}

#[cfg(feature = "opencv")]
fn stage_of_opencv<'a>(mask: u32, mode: Mode, size: Size, grid: &[u8]) -> Engine<'a> {
    use super::other::opencv::apply_among;
    let kernel = Kernel::of_mask(mask);
    let shape = (mode.erode, 2 * mode.around.cell(), size.width());
    let mut memory = Lent::apart(&recoded(grid), size.grid());
    Engine::new("OpenCV", move |read| {
        let (from, to) = memory.parts();
        apply_among(&kernel, shape, from, black_box(to));
        asked_any(read, &if read { recoded(to) } else { Vec::new() })
    })
}

/// A row, with the cells of its mask.
pub struct Single {
    pub cells: u32,
    pub row: Row,
}

/// The rows of single stages in grids with holes.
fn stage_rows(table: &mut Table) -> Vec<Single> {
    let (size, around) = (table.size, Around::Free);
    let mut rows = Vec::new();
    for holes in HOLES {
        for (erode, what) in [(false, "dilation"), (true, "erosion")] {
            for mask in MASKS {
                let mode = Mode { erode, around };
                let case = (stage_word(mask), mode, size);
                let measured = pictures::grid(size, mode);
                let grid = holes.into(&measured);
                let library = &BUILDS[0];
                let mut engines = vec![
                    stage_of(library.name, library, case, &grid),
                    stage_of("measured", library, case, &measured).uncompared(),
                ];
                for build in &BUILDS[1..] {
                    engines.push(stage_of(build.name, build, case, &measured).uncompared());
                }
                #[cfg(feature = "opencv")]
                engines.push(stage_of_opencv(mask, mode, size, &grid));
                let cells = mask.count_ones();
                let name = format!("{what} by {mask}, {cells} cells, {}", holes.name());
                let row = table.row(name, engines);
                rows.push(Single { cells, row });
            }
        }
    }
    rows
}

/// Rows of single stages, and of operations.
pub fn run() -> (Vec<Single>, Vec<Row>) {
    let mut table = Table::new("stage, holes", GREATEST, stages::PACE);
    let singles = stage_rows(&mut table);
    let mut table = Table::new("operation, holes", GREATEST, operations::PACE);
    let wholes = operation_rows(&mut table);
    (singles, wholes)
}
