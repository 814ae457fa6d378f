//! Runs a case through the library and the reference, in lent memory that is
//! compared word for word.

use crate::cases::{hex, Call, Case};
use crate::random::Random;
use crate::reference::grounds::{first, PLAN};
use crate::reference::points::{joined, of_plan, Point};
use crate::{library, reference};
use std::hint::black_box;
use std::ops::Range;

/// Words laid before, between and after the lent parts; nobody may write them.
const GUARD: usize = 3;

/// All the memory of one call: guard, list, guard, list, guard, output, guard.
#[derive(Default)]
struct Lent {
    words: Vec<u32>,
    a: Range<usize>,
    b: Range<usize>,
    out: Range<usize>,
}

impl Lent {
    /// Lays out the case, with a pattern in the output and the guards.
    fn lay(&mut self, case: &Case, seed: u32) {
        let after = |start: usize, n: usize| start + GUARD..start + GUARD + n;
        self.a = after(0, case.a.len());
        self.b = after(self.a.end, case.b.len());
        self.out = after(self.b.end, case.out_n);
        let pattern = |i: u32| seed ^ i.wrapping_mul(0x9e37_79b9);
        self.words.clear();
        self.words
            .extend((0..(self.out.end + GUARD) as u32).map(pattern));
        self.words[self.a.clone()].copy_from_slice(&case.a);
        self.words[self.b.clone()].copy_from_slice(&case.b);
    }

    /// The two lists and the output.
    fn parts(&mut self) -> (&[u32], &[u32], &mut [u32]) {
        let (lists, out) = self.words.split_at_mut(self.out.start);
        let n = self.out.len();
        (
            &lists[self.a.clone()],
            &lists[self.b.clone()],
            &mut out[..n],
        )
    }
}

/// What came of a case: the answer, and the result's points or the first of grounds 1 to 7.
pub struct Outcome {
    pub answer: i64,
    pub points: Result<Vec<Point>, i64>,
}

/// The list is a plan list, masks never falling, and its points are these.
pub fn assert_plan_of(points: &[Point], list: &[u32]) {
    let ground = first(&PLAN, &[list]);
    assert_eq!(ground, None, "{} is no plan list", hex(list));
    let (made, wanted) = (joined(&of_plan(list), &[]), joined(points, &[]));
    assert_eq!(made, wanted, "{} has other points", hex(list));
}

pub struct Checker {
    random: Random,
    ours: Lent,
    theirs: Lent,
}

impl Checker {
    pub fn new(seed: u64) -> Checker {
        let random = Random::new(seed);
        Checker {
            random,
            ours: Lent::default(),
            theirs: Lent::default(),
        }
    }

    /// Asserts that answer and memory are as the reference has them.
    pub fn check(&mut self, case: &Case) -> Outcome {
        let seed = self.random.word();
        self.ours.lay(case, seed);
        self.theirs.lay(case, seed);
        let offset = (case.dx, case.dy);
        let points = reference::result_points(case.call, &case.a, &case.b, offset);
        let expected = reference::finish(case.call, &points, self.ours.parts().2);
        let (a, b, out) = self.theirs.parts();
        let answer = library::run(case.call, a, b, offset, out);
        // The inputs too are read anew, though they were lent for reading alone.
        let found = black_box(&mut self.theirs);
        let same = answer == expected && found.words == self.ours.words;
        assert!(same, "{}", self.difference(case, answer, expected));
        if let (Call::Plan, Ok(points), 1..) = (case.call, &points, answer) {
            assert_plan_of(points, &self.theirs.parts().2[..answer as usize]);
        }
        Outcome { answer, points }
    }

    /// The case, both answers and the first word that differs, if one does.
    fn difference(&self, case: &Case, answer: i64, expected: i64) -> String {
        let (found, wanted) = (&self.theirs.words, &self.ours.words);
        let mut text = format!("{case}\nanswers {answer}, expected {expected}");
        if let Some(i) = (0..found.len()).find(|&i| found[i] != wanted[i]) {
            let at = i as i64 - self.ours.out.start as i64;
            text += &format!("\nword {at} of the output's memory differs (below 0: before it)");
            text += &format!("\nfound  {}", hex(&found[self.ours.out.start..]));
            text += &format!("\nwanted {}", hex(&wanted[self.ours.out.start..]));
        }
        text
    }
}
