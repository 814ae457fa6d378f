//! Runs a case through the library and the reference, in lent memory that is compared
//! byte for byte.

use super::reference::{self, Frames};
use super::tally::Tally;
use super::{library, Case};
use crate::random::Random;
use std::hint::black_box;
use std::ops::Range;

/// Bytes laid before, between and after the lent parts, and words about the plan;
/// nobody may write them.
const GUARD: usize = 40;
const WORDS: usize = 3;

/// All the memory of one call: guard, plan, guard; guard, row, guard, live frame, guard,
/// kept frame, guard.
#[derive(Clone, PartialEq, Eq)]
struct Lent {
    words: Vec<u32>,
    bytes: Vec<u8>,
    row: Range<usize>,
    live: Range<usize>,
    kept: Range<usize>,
}

impl Lent {
    /// Lays out the case, with random guards.
    fn of(case: &Case, random: &mut Random) -> Lent {
        let after = |start: usize, n: usize| start + GUARD..start + GUARD + n;
        let row = after(0, case.row.len());
        let live = after(row.end, case.live.len());
        let kept = after(live.end, case.kept.len());
        let eights = (kept.end + GUARD).div_ceil(8);
        let bytes: Vec<u8> = (0..eights)
            .flat_map(|_| random.bits().to_le_bytes())
            .collect();
        let guard = [random.word(); WORDS];
        let mut lent = Lent {
            words: [&guard, &case.plan[..], &guard].concat(),
            bytes,
            row: row.clone(),
            live,
            kept,
        };
        lent.bytes[row].copy_from_slice(&case.row);
        lent.write(&case.live, &case.kept);
        lent
    }

    fn write(&mut self, live: &[u8], kept: &[u8]) {
        self.bytes[self.live.clone()].copy_from_slice(live);
        self.bytes[self.kept.clone()].copy_from_slice(kept);
    }

    /// The plan, the row and both frames.
    fn parts(&mut self) -> (&[u32], &[u8], &mut [u8], &mut [u8]) {
        let (before, kept) = self.bytes.split_at_mut(self.kept.start);
        let (row, live) = before.split_at_mut(self.live.start);
        (
            &self.words[WORDS..self.words.len() - WORDS],
            &row[self.row.clone()],
            &mut live[..self.live.len()],
            &mut kept[..self.kept.len()],
        )
    }
}

pub struct Checker {
    random: Random,
    pub tally: Tally,
}

impl Checker {
    pub fn new(seed: u64) -> Checker {
        let (random, tally) = (Random::new(seed), Tally::default());
        Checker { random, tally }
    }

    /// Asserts that answer and memory are as the reference has them.
    pub fn check(&mut self, case: &Case) -> Result<Frames, usize> {
        let mut ours = Lent::of(case, &mut self.random);
        let mut theirs = ours.clone();
        let wanted = reference::run(case);
        let (plan, row, live, kept) = theirs.parts();
        let answer = library::arrive(plan, (case.w, case.h), row, live, kept);
        // What was lent for reading alone is read anew too.
        let found = black_box(&mut theirs);
        let expected = match &wanted {
            Err(ground) => -(*ground as i64),
            Ok(frames) => {
                ours.write(&frames.live, &frames.kept);
                0
            }
        };
        assert!(
            answer == expected && *found == ours,
            "{case}\nanswers {answer}, expected {expected}{}",
            difference(case, found, &ours)
        );
        self.tally.note(&wanted);
        wanted
    }

    /// `check`, with the ground written out, 0 for success.
    pub fn answers(&mut self, case: &Case, wanted: usize) {
        let ground = self.check(case).err().unwrap_or(0);
        assert_eq!(ground, wanted, "{case}");
    }

    /// `check`, with both frames written out.
    pub fn gives(&mut self, case: &Case, live: &[u8], kept: &[u8]) {
        match self.check(case) {
            Err(ground) => panic!("{case}\nrefused on {ground}"),
            Ok(frames) => {
                assert_eq!(frames.live, live, "{case}: the live frame");
                assert_eq!(frames.kept, kept, "{case}: the kept frame");
            }
        }
    }
}

/// The first byte that differs, if one does, with its row in the kept frame.
fn difference(case: &Case, found: &Lent, wanted: &Lent) -> String {
    if found.words != wanted.words {
        return "\nthe plan or the words about it are changed".to_string();
    }
    let differs = |&i: &usize| found.bytes[i] != wanted.bytes[i];
    let Some(i) = (0..found.bytes.len()).find(differs) else {
        return String::new();
    };
    let at = |part: &Range<usize>| i as i64 - part.start as i64;
    let (row, live, kept) = (at(&found.row), at(&found.live), at(&found.kept));
    let (is, wanted, w) = (found.bytes[i], wanted.bytes[i], case.w);
    format!(
        "\nbyte {row} of the row, {live} of the live frame, {kept} of the kept one, in rows \
         of {w}, is {is}, wanted {wanted}"
    )
}
