//! Counts of what the arrivals met, so that a family can't miss a ground or a kind of
//! kept frame unseen.

use super::grounds::{holding, GROUNDS};
use super::reference::Frames;
use super::Case;

/// Counts by ground are at the ground's number; 0 stands for success.
#[derive(Default)]
pub struct Tally {
    answers: [u64; 16],
    /// Answered by the first ground while the second holds too.
    pairs: [[u64; 16]; 16],
    /// Arrivals after which no row, exactly one row or several rows were only moved.
    moved: [u64; 3],
    /// Kept frames that are the live one's dilation, and others.
    right: u64,
    wrong: u64,
}

impl Tally {
    pub fn note(&mut self, result: &Result<Frames, usize>) {
        match result {
            Err(ground) => self.answers[*ground] += 1,
            Ok(frames) => {
                self.answers[0] += 1;
                self.moved[frames.moved.min(2)] += 1;
                let right = frames.kept == frames.dilated;
                self.right += u64::from(right);
                self.wrong += u64::from(!right);
            }
        }
    }

    /// Notes which grounds hold together, and that the answer is the first of them.
    pub fn note_grounds(&mut self, case: &Case, result: &Result<Frames, usize>) {
        let held = holding(case);
        let answer = result.as_ref().err();
        assert_eq!(answer, held.first(), "{case}: not the first that holds");
        for later in held.iter().skip(1) {
            self.pairs[held[0]][*later] += 1;
        }
    }

    /// Every one of these answers came up at least so often, and no other did at all.
    pub fn assert_answers(&self, wanted: &[usize], least: u64) {
        println!("answers {:?}", self.answers);
        for (number, &count) in self.answers.iter().enumerate() {
            let right = if wanted.contains(&number) {
                count >= least
            } else {
                count == 0
            };
            assert!(
                right,
                "ground {number} (0: success) came up {count} times, {:?}",
                self.answers
            );
        }
    }

    /// Any two grounds held together at least so often. Ground 8 is never told where
    /// one of 1 to 3 holds.
    pub fn assert_pairs(&self, least: u64) {
        for (i, &one) in GROUNDS.iter().enumerate() {
            for &later in &GROUNDS[i + 1..] {
                let count = self.pairs[one][later];
                let told = later != 8 || one > 3;
                println!("grounds {one} and {later} held together {count} times");
                assert!(
                    !told || count >= least,
                    "{one} and {later} together {count} times"
                );
            }
        }
    }

    /// No row, one row and several rows were only moved at least so often; kept frames
    /// were right and wrong at least so often.
    pub fn assert_kept(&self, least: u64) {
        let (moved, right, wrong) = (self.moved, self.right, self.wrong);
        println!("rows only moved {moved:?}, right {right}, wrong {wrong}");
        let enough = moved.into_iter().chain([right, wrong]);
        let enough = enough.min().is_some_and(|count| count >= least);
        assert!(enough, "moved {moved:?}, right {right}, wrong {wrong}");
    }
}
