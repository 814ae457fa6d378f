//! Load, putting and the single stage. One case is a call, a size, the bytes that are
//! read and the length of the image that is written.

use std::fmt;

pub mod cells;
pub mod check;
pub mod grounds;
pub mod library;
pub mod makers;
pub mod measured;
pub mod reference;
pub mod refused;

/// The two kinds of grid, by what is around the frame in it and outside it.
#[derive(Clone, Copy, Debug, PartialEq, Eq)]
pub enum Around {
    Free,
    Occupied,
}

pub const AROUND: [Around; 2] = [Around::Free, Around::Occupied];

impl Around {
    /// x and y of the grid's first cell.
    pub fn start(self) -> i64 {
        match self {
            Around::Free => 0,
            Around::Occupied => -15,
        }
    }

    /// A cell around the frame, and one outside the grid.
    pub fn cell(self) -> u8 {
        match self {
            Around::Free => 0,
            Around::Occupied => 1,
        }
    }
}

/// How a single stage is run: by dilation or erosion, and in which kind of grid.
#[derive(Clone, Copy, Debug, PartialEq, Eq)]
pub struct Mode {
    pub erode: bool,
    pub around: Around,
}

impl Mode {
    const fn new(erode: bool, around: Around) -> Mode {
        Mode { erode, around }
    }
}

pub const MODES: [Mode; 4] = [
    Mode::new(false, Around::Free),
    Mode::new(true, Around::Free),
    Mode::new(false, Around::Occupied),
    Mode::new(true, Around::Occupied),
];

#[derive(Clone, Copy, Debug, PartialEq, Eq)]
pub enum Call {
    Load,
    Put { around: Around },
    Stage { word: u32, mode: Mode },
}

#[derive(Clone, Debug)]
pub struct Case {
    pub call: Call,
    pub w: usize,
    pub h: usize,
    /// The frame, or the image that a single stage reads.
    pub read: Vec<u8>,
    /// Bytes of the image that is written; 0 and unused in the load.
    pub write_n: usize,
}

/// The stage word of a mask.
pub fn stage_word(mask: u32) -> u32 {
    0x5000_0000 | mask
}

/// Bytes of a grid; the size is small.
pub fn grid_of(w: usize, h: usize) -> usize {
    (w + 15) * (h + 15)
}

impl Case {
    pub fn load(w: usize, h: usize, frame: &[u8]) -> Case {
        Case::new(Call::Load, (w, h), frame, 0)
    }

    pub fn put(w: usize, h: usize, frame: &[u8], around: Around, image_n: usize) -> Case {
        Case::new(Call::Put { around }, (w, h), frame, image_n)
    }

    pub fn stage(word: u32, mode: Mode, size: (usize, usize), from: &[u8], to_n: usize) -> Case {
        Case::new(Call::Stage { word, mode }, size, from, to_n)
    }

    fn new(call: Call, (w, h): (usize, usize), read: &[u8], write_n: usize) -> Case {
        let read = read.to_vec();
        Case {
            call,
            w,
            h,
            read,
            write_n,
        }
    }
}

impl fmt::Display for Case {
    fn fmt(&self, f: &mut fmt::Formatter) -> fmt::Result {
        match self.call {
            Call::Load => write!(f, "load")?,
            Call::Put { around } => write!(f, "put, around {around:?}")?,
            Call::Stage { word, mode } => write!(f, "stage {word:08x}, {mode:?}")?,
        }
        let (w, h, n) = (self.w, self.h, self.read.len());
        write!(f, ", W {w}, H {h}, {n} bytes read")?;
        if n <= 400 {
            write!(f, " {:?}", self.read)?;
        }
        write!(f, ", image written of {} bytes", self.write_n)
    }
}
