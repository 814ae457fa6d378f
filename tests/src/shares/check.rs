//! Runs a case through the library and the reference, in lent memory that is compared
//! byte for byte.

use super::reference::{self, Share};
use super::tally::Tally;
use super::{library, Case};
use crate::random::Random;
use std::hint::black_box;
use std::ops::Range;

/// Bytes laid before and after the frame, and words before and after the remainder;
/// nobody may write them.
const GUARD: usize = 40;
const WORDS: usize = 3;

/// All the memory of one call: guard, frame, guard; guard, remainder, guard.
#[derive(Clone, PartialEq, Eq)]
struct Lent {
    bytes: Vec<u8>,
    frame: Range<usize>,
    words: [u32; 2 * WORDS + 1],
}

impl Lent {
    /// Lays out the case, with random guards and the frame at any alignment.
    fn of(case: &Case, random: &mut Random) -> Lent {
        let start = GUARD + random.below(8);
        let frame = start..start + case.frame.len();
        let eights = (frame.end + GUARD).div_ceil(8);
        let mut bytes: Vec<u8> = (0..eights)
            .flat_map(|_| random.bits().to_le_bytes())
            .collect();
        bytes[frame.clone()].copy_from_slice(&case.frame);
        let mut words = [(); 2 * WORDS + 1].map(|_| random.word());
        words[WORDS] = case.before;
        Lent {
            bytes,
            frame,
            words,
        }
    }

    /// The frame and the remainder.
    fn parts(&mut self) -> (&[u8], &mut u32) {
        (&self.bytes[self.frame.clone()], &mut self.words[WORDS])
    }
}

pub struct Checker {
    random: Random,
    pub tally: Tally,
}

impl Checker {
    pub fn new(seed: u64) -> Checker {
        let (random, tally) = (Random::new(seed), Tally::default());
        Checker { random, tally }
    }

    /// Asserts that answer and memory are as the reference has them.
    pub fn check(&mut self, case: &Case) -> Result<Share, i64> {
        let mut ours = Lent::of(case, &mut self.random);
        let mut theirs = ours.clone();
        let wanted = reference::run(case);
        let (frame, remainder) = theirs.parts();
        let answer = library::share((case.w, case.h), frame, remainder);
        // What was lent for reading alone is read anew too.
        let found = black_box(&mut theirs);
        let expected = match wanted {
            Err(ground) => -ground,
            Ok(share) => {
                *ours.parts().1 = share.remainder;
                share.quotient
            }
        };
        assert!(
            answer == expected && *found == ours,
            "{case}\nanswers {answer}, expected {expected}{}",
            difference(found, &ours)
        );
        self.tally.note(case, wanted);
        wanted
    }

    /// `check` of a frame that isn't refused.
    pub fn share(&mut self, case: &Case) -> Share {
        match self.check(case) {
            Err(ground) => panic!("{case}\nrefused on {ground}"),
            Ok(share) => share,
        }
    }

    /// `check`, with quotient and remainder written out.
    pub fn gives(&mut self, case: &Case, (quotient, remainder): (i64, u32)) {
        let share = self.share(case);
        let found = (share.quotient, share.remainder);
        assert_eq!(found, (quotient, remainder), "{case}");
    }

    /// `check`, with the ground written out, whatever stands in the place of the remainder.
    pub fn refuses(&mut self, case: &Case, ground: i64) {
        for before in [0, 1, u32::MAX, self.random.word()] {
            let case = Case::new((case.w, case.h), &case.frame, before);
            assert_eq!(self.check(&case), Err(ground), "{case}");
        }
    }
}

/// The words about the remainder, if they differ, else the first byte that differs.
fn difference(found: &Lent, wanted: &Lent) -> String {
    if found.words != wanted.words {
        let (is, wanted) = (found.words, wanted.words);
        return format!("\nremainder and words about it are {is:?}, wanted {wanted:?}");
    }
    let differs = |&i: &usize| found.bytes[i] != wanted.bytes[i];
    let Some(i) = (0..found.bytes.len()).find(differs) else {
        return String::new();
    };
    let at = i as i64 - found.frame.start as i64;
    let (is, wanted) = (found.bytes[i], wanted.bytes[i]);
    format!("\nbyte {at} of the frame is {is}, wanted {wanted}")
}
