//! Runs a case through the library and the reference, in lent memory that is compared
//! byte for byte.

use super::{library, reference, Case};
use crate::random::Random;
use std::hint::black_box;
use std::ops::Range;

/// Bytes laid before, between and after the lent parts; nobody may write them.
const GUARD: usize = 40;

/// All the memory of one call: guard, bytes read, guard, image written, guard.
#[derive(Clone)]
struct Lent {
    bytes: Vec<u8>,
    read: Range<usize>,
    write: Range<usize>,
}

impl Lent {
    /// Lays out the case, with random bytes in the image written and the guards.
    fn of(case: &Case, random: &mut Random) -> Lent {
        let read = GUARD..GUARD + case.read.len();
        let write = read.end + GUARD..read.end + GUARD + case.write_n;
        let words = (write.end + GUARD).div_ceil(8);
        let mut bytes: Vec<u8> = (0..words)
            .flat_map(|_| random.bits().to_le_bytes())
            .collect();
        bytes[read.clone()].copy_from_slice(&case.read);
        Lent { bytes, read, write }
    }

    /// The bytes read and the image written.
    fn parts(&mut self) -> (&[u8], &mut [u8]) {
        let (before, image) = self.bytes.split_at_mut(self.write.start);
        (&before[self.read.clone()], &mut image[..self.write.len()])
    }
}

pub struct Checker {
    random: Random,
    pub cases: u64,
}

impl Checker {
    pub fn new(seed: u64) -> Checker {
        let random = Random::new(seed);
        Checker { random, cases: 0 }
    }

    /// Asserts that answer and memory are as the reference has them.
    pub fn check(&mut self, case: &Case) -> i64 {
        self.cases += 1;
        let mut ours = Lent::of(case, &mut self.random);
        let mut theirs = ours.clone();
        let expected = reference::run(case, ours.parts().1);
        let (read, write) = theirs.parts();
        let answer = library::run(case, read, write);
        // The bytes read too are read anew, though they were lent for reading alone.
        let found = black_box(&mut theirs);
        let same = answer == expected && found.bytes == ours.bytes;
        assert!(
            same,
            "{case}\nanswers {answer}, expected {expected}{}",
            difference(&theirs, &ours)
        );
        answer
    }

    /// `check`, with the answer written out.
    pub fn answers(&mut self, case: &Case, wanted: i64) {
        let answer = self.check(case);
        assert_eq!(answer, wanted, "{case}");
    }
}

/// The first byte that differs, if one does.
fn difference(found: &Lent, wanted: &Lent) -> String {
    let differs = |&i: &usize| found.bytes[i] != wanted.bytes[i];
    let Some(i) = (0..found.bytes.len()).find(differs) else {
        return String::new();
    };
    let (is, wanted) = (found.bytes[i], wanted.bytes[i]);
    let (from, to) = (i as i64 - GUARD as i64, i as i64 - found.write.start as i64);
    format!("\nbyte {from} of those read, {to} of the image written, is {is}, wanted {wanted}")
}
