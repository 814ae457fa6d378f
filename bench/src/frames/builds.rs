//! Builds of the library: the one that stands in target/, and where the feature `before`
//! is on another beside it.

#[cfg(feature = "before")]
use super::before;
use musqerpi_tests::frames::{Around, Mode};
use musqerpi_tests::operations::Op;
use musqerpi_tests::{frames, operations};

type Put = fn(usize, usize, &[u8], Around, &mut [u8]) -> i64;
type Stage = fn(u32, Mode, (usize, usize), &[u8], &mut [u8]) -> i64;
type Operate = fn(Op, &[u32], (usize, usize), &[u8], &mut [u8], &mut [u8]) -> i64;
type Load = fn(usize, usize, &[u8]) -> i64;
type Part = fn(i64, (usize, usize), &[u8], &[u8], &mut u8) -> i64;

pub struct Build {
    pub name: &'static str,
    knows_second: bool,
    pub put: Put,
    pub stage: Stage,
    pub operate: Operate,
    pub part: Part,
    pub load: Load,
}

impl Build {
    /// Whether it has this kind of grid.
    pub fn knows(&self, around: Around) -> bool {
        self.knows_second || around == Around::Free
    }
}

pub const BUILDS: &[Build] = &[
    Build {
        name: "library",
        knows_second: true,
        put: frames::library::put,
        stage: frames::library::stage,
        operate: operations::library::operate,
        part: operations::library::part,
        load: frames::library::load,
    },
    #[cfg(feature = "before")]
    Build {
        name: "before",
        knows_second: before::KNOWS_SECOND,
        put: before::put,
        stage: before::stage,
        operate: before::operate,
        part: before::part,
        load: before::load,
    },
];
