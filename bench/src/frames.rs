//! Frames: putting, the load, also in ten-thousandths, single stages, whole operations and
//! arriving rows at the greatest size, 240 by 240, and stages and operations on small
//! frames; the library beside OpenCV, leptonica, Rust and plain copies.

use goals::Rows;
use musqerpi_tests::frames::{grid_of, Around};
use std::fmt;

mod arriving;
#[cfg(feature = "before")]
mod before;
mod builds;
mod goals;
mod kernel;
mod load;
mod operations;
mod other;
mod pictures;
mod putting;
mod rust;
mod share;
mod small;
mod stages;
mod table;
mod unmeasured;

/// W and H of a frame.
#[derive(Clone, Copy)]
struct Size {
    w: usize,
    h: usize,
}

const GREATEST: Size = Size { w: 240, h: 240 };

impl Size {
    fn pair(self) -> (usize, usize) {
        (self.w, self.h)
    }

    /// Cells of the frame.
    fn cells(self) -> usize {
        self.w * self.h
    }

    /// Columns of the grid, and its bytes.
    fn width(self) -> usize {
        self.w + 15
    }

    fn grid(self) -> usize {
        grid_of(self.w, self.h)
    }

    /// The place of the frame's first cell in a grid of this kind.
    fn first(self, around: Around) -> usize {
        let before = -around.start() as usize;
        before * self.width() + before
    }
}

/// The end of a row's name, which tells the kind of grid.
fn among(around: Around) -> &'static str {
    match around {
        Around::Free => "",
        Around::Occupied => ", among 1s",
    }
}

impl fmt::Display for Size {
    fn fmt(&self, f: &mut fmt::Formatter) -> fmt::Result {
        write!(f, "{} x {}", self.w, self.h)
    }
}

pub fn run() {
    #[cfg(feature = "opencv")]
    println!("OpenCV {}, one thread", other::opencv::start());
    #[cfg(feature = "leptonica")]
    println!("{}, one bit a cell", other::leptonica::version());
    println!("the library's microseconds, and its time over the others'");
    let puts = putting::run();
    let loads = load::run();
    let shares = share::run();
    let stages = stages::run();
    let operations = operations::run();
    let (thin_arrivals, thick_arrivals) = arriving::run();
    let (small_stages, small_operations) = small::run();
    let (stages_with_holes, operations_with_holes) = unmeasured::run();
    goals::print(&Rows {
        puts,
        loads,
        shares,
        stages,
        operations,
        thin_arrivals,
        thick_arrivals,
        small_stages,
        small_operations,
        stages_with_holes,
        operations_with_holes,
    });
}
