//! Whole operations: a frame by plans of 1, 4 and 8 stages. The others put the frame into
//! a grid of the operation's kind, go through the stages or the whole shape, and cut the
//! last grid to the frame.

use super::builds::{Build, BUILDS};
use super::kernel::Kernel;
use super::table::{asked, Engine, Lent, Pace, Row, Table};
use super::{pictures, rust, Size, GREATEST};
use musqerpi_tests::frames::Mode;
use musqerpi_tests::lists::list_of_rows;
use musqerpi_tests::operations::makers::planned;
use musqerpi_tests::operations::{plan_list, Case, Op, OPS};
use std::hint::black_box;

pub const PACE: Pace = Pace {
    rounds: 41,
    times: 1,
    decimals: 1,
};

/// A plan and its name in a table.
pub type Plan = (&'static str, Vec<u32>);

/// Four stages of two cells each.
pub fn four_thin() -> Vec<u32> {
    plan_list((-1, -1), &[3, 5, 9, 65])
}

/// The plan of the disk D(4) in nine columns and rows, taken from this anchor.
pub fn disk(anchor: (u32, u32)) -> Vec<u32> {
    let disk = |x: i32, y: i32| (x - 4).pow(2) + (y - 4).pow(2) <= 16;
    let row = |y: i32| {
        (0..9)
            .filter(|&x| disk(x, y))
            .fold(0, |row, x| row | 1 << x)
    };
    let mut rows = [0; 16];
    for y in 0..9 {
        rows[y as usize] = row(y);
    }
    planned(&list_of_rows(anchor, &rows)).expect("a plan")
}

/// The plan of the full window.
pub fn window() -> Vec<u32> {
    planned(&list_of_rows((8, 8), &[0xffff; 16])).expect("a plan")
}

/// Thin masks and thick shapes, of 1, 4 and 8 stages.
pub fn plans() -> Vec<Plan> {
    let thin = [3, 3, 5, 5, 9, 9, 65, 65];
    vec![
        ("1 stage, 2 cells", plan_list((0, 0), &[17])),
        ("1 stage, 9 cells", plan_list((-1, -1), &[511])),
        ("4 stages, thin", four_thin()),
        ("4 stages, disk", disk((4, 4))),
        ("8 stages, thin", plan_list((-3, -3), &thin)),
        ("8 stages, window", window()),
    ]
}

pub fn size_of(case: &Case) -> Size {
    let (w, h) = (case.w, case.h);
    Size { w, h }
}

/// The passes of the operation, all in its kind of grid.
pub fn modes(op: Op) -> impl Iterator<Item = Mode> {
    let mode = move |&erode| Mode {
        erode,
        around: op.around(),
    };
    op.passes().iter().map(mode)
}

/// Cell (x, y) of the frame is the grid's, moved by the operation's offset, and outside the
/// grid what its kind says. The offset is less than W either way.
fn cut(case: &Case, grid: &[u8], cells: &mut [u8]) {
    cut_among(case, case.op.around().cell(), grid, cells);
}

/// The same with this value outside the grid.
pub fn cut_among(case: &Case, outside: u8, grid: &[u8], cells: &mut [u8]) {
    let (dx, dy) = case.offset();
    let (dx, dy) = match case.op {
        Op::Dilate => (-dx, -dy),
        Op::Erode => (dx, dy),
        Op::Open | Op::Close => (0, 0),
    };
    let first = case.op.around().start();
    // From the frame's column and row to the grid's.
    let (dx, dy) = (dx - first, dy - first);
    let (w, width) = (case.w, size_of(case).width());
    let left = (-dx).max(0) as usize;
    let right = w.min((width as i64 - dx) as usize);
    for (y, row) in cells.chunks_mut(w).enumerate() {
        let from = y as i64 + dy;
        row.fill(outside);
        if (0..case.h as i64 + 15).contains(&from) {
            let start = (from * width as i64 + left as i64 + dx) as usize;
            row[left..right].copy_from_slice(&grid[start..start + right - left]);
        }
    }
}

/// Puts, takes the grid through all these kernels once for each pass, and cuts.
fn by_grids<'a, K>(
    name: &'static str,
    case: &'a Case,
    kernels: &'a [K],
    apply: impl Fn(&K, Mode, &[u8], &mut [u8]) + 'a,
) -> Engine<'a> {
    let size = size_of(case);
    let (mut from, mut to) = (vec![7; size.grid()], vec![7; size.grid()]);
    let mut cells = vec![7; size.cells()];
    Engine::new(name, move |read| {
        rust::put(size, &case.frame, case.op.around(), &mut from);
        for mode in modes(case.op) {
            for kernel in kernels {
                apply(kernel, mode, &from, &mut to);
                std::mem::swap(&mut from, &mut to);
            }
        }
        cut(case, &from, &mut cells);
        asked(read, black_box(&cells))
    })
}

/// The operation and the call that hands back its part. The second image stands right
/// after the first. A build that hasn't the operation's kind of grid isn't compared: it has
/// another result.
fn of_build<'a>(build: &'static Build, case: &'a Case) -> Engine<'a> {
    let (pair, grid) = (size_of(case).pair(), size_of(case).grid());
    let next = grid.next_multiple_of(64);
    let mut memory = Lent::apart(&case.frame, next + grid);
    let run = case.op.stages_run(case.stages()) as i64;
    let engine = Engine::new(build.name, move |read| {
        let (frame, images) = memory.parts();
        let (first, second) = images.split_at_mut(next);
        let first = &mut first[..grid];
        let stages = (build.operate)(case.op, &case.plan, pair, frame, first, second);
        assert_eq!(stages, run, "{:?}", case.op);
        let mut image = 0;
        let length = (build.part)(stages, pair, first, second, &mut image);
        let from = if image == 1 { first } else { second };
        asked(read, &from[..length as usize])
    });
    match build.knows(case.op.around()) {
        true => engine,
        false => engine.uncompared(),
    }
}

/// As many copies of the grid as stages are run, and one at least.
fn of_copies(case: &Case) -> Engine<'_> {
    let grid = size_of(case).grid();
    let (mut from, mut to) = (vec![0; grid], vec![7; grid]);
    let copies = case.op.stages_run(case.stages()).max(1);
    let engine = Engine::new("copies", move |read| {
        for _ in 0..copies {
            to.copy_from_slice(black_box(&from));
            std::mem::swap(&mut from, &mut to);
        }
        asked(read, black_box(&from))
    });
    engine.uncompared()
}

/// Stages of one bit a cell; putting and cutting are left out of the time.
#[cfg(feature = "leptonica")]
fn of_leptonica<'a>(name: &'static str, case: &'a Case, kernels: &[Kernel]) -> Engine<'a> {
    use super::other::leptonica::{apply, Image, Sel};
    let (size, width) = (size_of(case), size_of(case).width());
    let mut grid = vec![0; size.grid()];
    rust::put(size, &case.frame, case.op.around(), &mut grid);
    let start = Image::of(&grid, width);
    let (mut from, mut to) = (Image::of(&grid, width), Image::of(&grid, width));
    let sels: Vec<Sel> = kernels.iter().map(Sel::of).collect();
    Engine::new(name, move |read| {
        for (pass, mode) in modes(case.op).enumerate() {
            for (k, sel) in sels.iter().enumerate() {
                let source = if pass + k == 0 { &start } else { &from };
                apply(sel, mode, source, &mut to);
                std::mem::swap(&mut from, &mut to);
            }
        }
        if !read {
            return Vec::new();
        }
        let mut cells = vec![7; size.cells()];
        cut(case, &from.cells(size.grid(), width), &mut cells);
        cells
    })
}

/// The plan in the forms that the engines want.
struct Forms {
    masks: Vec<u32>,
    #[cfg(any(feature = "opencv", feature = "leptonica"))]
    stages: Vec<Kernel>,
    whole: [Kernel; 1],
}

impl Forms {
    fn of(plan: &[u32]) -> Forms {
        let masks: Vec<u32> = plan[2..].iter().map(|word| word & 0x1ff).collect();
        Forms {
            #[cfg(any(feature = "opencv", feature = "leptonica"))]
            stages: masks.iter().map(|&mask| Kernel::of_mask(mask)).collect(),
            masks,
            whole: [Kernel::of_stages(plan)],
        }
    }
}

fn engines<'a>(case: &'a Case, forms: &'a Forms) -> Vec<Engine<'a>> {
    let width = size_of(case).width();
    let builds = BUILDS.iter().map(|build| of_build(build, case));
    let mut engines: Vec<Engine> = builds.collect();
    #[cfg(feature = "opencv")]
    for (name, kernels) in [
        ("OpenCV stages", &forms.stages[..]),
        ("OpenCV whole", &forms.whole),
    ] {
        let apply = move |kernel: &Kernel, mode, from: &[u8], to: &mut [u8]| {
            super::other::opencv::apply(kernel, mode, width, from, to)
        };
        engines.push(by_grids(name, case, kernels, apply));
    }
    #[cfg(feature = "leptonica")]
    for (name, kernels) in [
        ("lept. stages", &forms.stages[..]),
        ("lept. whole", &forms.whole),
    ] {
        engines.push(of_leptonica(name, case, kernels));
    }
    let bytes = move |&mask: &u32, mode, from: &[u8], to: &mut [u8]| {
        rust::bytes(mask, mode, width, from, to)
    };
    engines.push(by_grids("bytes", case, &forms.masks, bytes));
    let direct = move |kernel: &Kernel, mode, from: &[u8], to: &mut [u8]| {
        rust::direct(kernel, mode, width, from, to)
    };
    engines.push(by_grids("direct", case, &forms.whole, direct));
    engines.push(of_copies(case));
    engines
}

/// A row, with the stages of its plan.
pub struct Whole {
    pub stages: usize,
    pub row: Row,
}

/// The rows of all four operations by these plans.
pub fn rows(table: &mut Table, plans: &[Plan]) -> Vec<Whole> {
    let (size, frame) = (table.size, pictures::frame(table.size));
    let mut rows = Vec::new();
    for op in OPS {
        for (name, plan) in plans {
            let images = (size.grid(), size.grid());
            let case = Case::new(op, plan, size.pair(), &frame, images);
            let forms = Forms::of(plan);
            let row = table.row(format!("{op:?}, {name}"), engines(&case, &forms));
            let stages = case.stages();
            rows.push(Whole { stages, row });
        }
    }
    rows
}

pub fn run() -> Vec<Whole> {
    rows(&mut Table::new("operation", GREATEST, PACE), &plans())
}
