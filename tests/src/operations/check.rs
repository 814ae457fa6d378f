//! Runs a case through the library and the reference, in lent memory that is compared
//! byte for byte, and takes the part from the call that hands it back.

use super::tally::Tally;
use super::{library, reference, Case};
use crate::frames::grid_of;
use crate::random::Random;
use std::hint::black_box;
use std::ops::Range;

/// Bytes laid before, between and after the lent parts, and words about the plan;
/// nobody may write them.
const GUARD: usize = 40;
const WORDS: usize = 3;

/// All the memory of one call: guard, plan, guard; guard, frame, guard, first image,
/// guard, second image, guard.
#[derive(Clone, PartialEq, Eq)]
pub struct Lent {
    words: Vec<u32>,
    bytes: Vec<u8>,
    frame: Range<usize>,
    first: Range<usize>,
    second: Range<usize>,
}

impl Lent {
    /// Lays out the case, with random bytes in both images and the guards.
    pub fn of(case: &Case, random: &mut Random) -> Lent {
        let after = |start: usize, n: usize| start + GUARD..start + GUARD + n;
        let frame = after(0, case.frame.len());
        let first = after(frame.end, case.first_n);
        let second = after(first.end, case.second_n);
        let eights = (second.end + GUARD).div_ceil(8);
        let mut bytes: Vec<u8> = (0..eights)
            .flat_map(|_| random.bits().to_le_bytes())
            .collect();
        bytes[frame.clone()].copy_from_slice(&case.frame);
        let guard = [random.word(); WORDS];
        let words = [&guard, &case.plan[..], &guard].concat();
        Lent {
            words,
            bytes,
            frame,
            first,
            second,
        }
    }

    /// The plan, the frame and both images.
    fn parts(&mut self) -> (&[u32], &[u8], &mut [u8], &mut [u8]) {
        let (before, second) = self.bytes.split_at_mut(self.second.start);
        let (frame, first) = before.split_at_mut(self.first.start);
        (
            &self.words[WORDS..self.words.len() - WORDS],
            &frame[self.frame.clone()],
            &mut first[..self.first.len()],
            &mut second[..self.second.len()],
        )
    }

    pub fn images(&self) -> (&[u8], &[u8]) {
        (
            &self.bytes[self.first.clone()],
            &self.bytes[self.second.clone()],
        )
    }

    /// Takes the grids over from another: an operation may leave anything there.
    fn take_grids(&mut self, other: &Lent, grid: usize) {
        for image in [&self.first, &self.second] {
            let grid = image.start..image.start + grid;
            self.bytes[grid.clone()].copy_from_slice(&other.bytes[grid]);
        }
    }

    /// Writes the part that is wanted after so many stages.
    fn write_part(&mut self, stages: usize, part: &[u8]) {
        let image = match reference::image_of(stages as i64) {
            1 => self.first.start,
            _ => self.second.start,
        };
        self.bytes[image..image + part.len()].copy_from_slice(part);
    }
}

pub struct Checker {
    random: Random,
    pub tally: Tally,
}

impl Checker {
    pub fn new(seed: u64) -> Checker {
        let (random, tally) = (Random::new(seed), Tally::default());
        Checker { random, tally }
    }

    /// Asserts that answer, memory and part are as the reference has them. The answer is
    /// the number of stages run and the part, or the ground.
    pub fn check(&mut self, case: &Case) -> Result<(usize, Vec<u8>), usize> {
        let mut ours = Lent::of(case, &mut self.random);
        let mut theirs = ours.clone();
        let wanted = reference::run(case);
        let (plan, frame, first, second) = theirs.parts();
        let answer = library::operate(case.op, plan, (case.w, case.h), frame, first, second);
        // What was lent for reading alone is read anew too.
        let found = black_box(&mut theirs);
        let expected = match &wanted {
            Err(ground) => -(*ground as i64),
            Ok((stages, part)) => {
                ours.take_grids(found, grid_of(case.w, case.h));
                ours.write_part(*stages, part);
                *stages as i64
            }
        };
        assert!(
            answer == expected && *found == ours,
            "{case}\nanswers {answer}, expected {expected}{}",
            difference(found, &ours)
        );
        let cells = wanted.as_ref().map_or(&[][..], |(_, part)| part);
        assert_part(case, answer, found, cells);
        self.tally.note(case, &wanted);
        wanted
    }

    /// `check`, with the ground written out, 0 for success.
    pub fn answers(&mut self, case: &Case, wanted: usize) {
        let ground = self.check(case).err().unwrap_or(0);
        assert_eq!(ground, wanted, "{case}");
    }

    /// `check`, with the stages run and the part written out.
    pub fn gives(&mut self, case: &Case, stages: usize, part: &[u8]) {
        let made = self.check(case);
        assert_eq!(made, Ok((stages, part.to_vec())), "{case}");
    }
}

/// The part as the library hands it back for this answer has these cells, none for a
/// refusal; nothing lent changes.
fn assert_part(case: &Case, answer: i64, lent: &mut Lent, cells: &[u8]) {
    let before = lent.clone();
    let (image, length) = part_of(answer, (case.w, case.h), lent);
    assert!(*lent == before, "{case}: the part's call changed something");
    let (first, second) = lent.images();
    let from = if image == 1 { first } else { second };
    assert_eq!(image, reference::image_of(answer), "{case}: the image");
    assert_eq!(length, cells.len() as i64, "{case}: the part's length");
    assert!(from[..cells.len()] == *cells, "{case}: the part's cells");
}

/// The part's image and its length, by the library; the byte that it writes is guarded.
pub fn part_of(stages: i64, size: (usize, usize), lent: &mut Lent) -> (u8, i64) {
    let mut image = [0x5a; 9];
    let (_, _, first, second) = lent.parts();
    let length = library::part(stages, size, first, second, &mut image[4]);
    let image = black_box(image);
    let guards = [&image[..4], &image[5..]].concat();
    assert_eq!(guards, [0x5a; 8], "bytes about the image's number");
    (image[4], length)
}

/// The first byte that differs, if one does.
fn difference(found: &Lent, wanted: &Lent) -> String {
    if found.words != wanted.words {
        return "\nthe plan or the words about it are changed".to_string();
    }
    let differs = |&i: &usize| found.bytes[i] != wanted.bytes[i];
    let Some(i) = (0..found.bytes.len()).find(differs) else {
        return String::new();
    };
    let at = |part: &Range<usize>| i as i64 - part.start as i64;
    let (frame, first, second) = (at(&found.frame), at(&found.first), at(&found.second));
    let (is, wanted) = (found.bytes[i], wanted.bytes[i]);
    format!(
        "\nbyte {frame} of the frame, {first} of the first image, {second} of the second, \
         is {is}, wanted {wanted}"
    )
}
