//! Counts of what the cases met, so that a family can't miss a ground or a kind of
//! result unseen.

use super::grounds::{holding, GROUNDS};
use super::{Case, OPS};

/// Counts by ground are at the ground's number; 0 stands for success.
#[derive(Default)]
pub struct Tally {
    pub cases: u64,
    answers: [[u64; 15]; 4],
    /// Answered by the first ground while the second holds too.
    pairs: [[u64; 15]; 15],
    /// Plans that ran, by their number of stages.
    stages: [u64; 31],
    /// Results with an occupied cell, with a free one, with one that isn't measured, and
    /// unlike the frame.
    occupied: [u64; 4],
    free: [u64; 4],
    unmeasured: [u64; 4],
    changed: [u64; 4],
}

impl Tally {
    /// Notes the case, and its part if it has one.
    pub fn note(&mut self, case: &Case, result: &Result<(usize, Vec<u8>), usize>) {
        let op = OPS.iter().position(|&op| op == case.op).expect("four");
        self.cases += 1;
        match result {
            Err(ground) => self.answers[op][*ground] += 1,
            Ok((_, part)) => {
                self.answers[op][0] += 1;
                self.stages[case.stages()] += 1;
                self.occupied[op] += u64::from(part.contains(&1));
                self.free[op] += u64::from(part.contains(&0));
                self.unmeasured[op] += u64::from(part.contains(&2));
                self.changed[op] += u64::from(*part != case.frame);
            }
        }
    }

    /// Notes which grounds hold together, and that the answer is the first of them.
    pub fn note_grounds(&mut self, case: &Case, result: &Result<(usize, Vec<u8>), usize>) {
        let held = holding(case);
        let answer = result.as_ref().err();
        assert_eq!(answer, held.first(), "{case}: not the first that holds");
        for later in held.iter().skip(1) {
            self.pairs[held[0]][*later] += 1;
        }
    }

    /// Every one of these answers came up at least so often in each operation, and no
    /// other did at all.
    pub fn assert_answers(&self, wanted: &[usize], least: u64) {
        for (op, counts) in OPS.iter().zip(self.answers) {
            println!("{op:?}: answers {counts:?}");
            for (number, &count) in counts.iter().enumerate() {
                let right = if wanted.contains(&number) {
                    count >= least
                } else {
                    count == 0
                };
                assert!(
                    right,
                    "{op:?}: ground {number} (0: success) came up {count} times, {counts:?}"
                );
            }
        }
    }

    /// Any two grounds held together at least so often. Ground 8 is never told where
    /// one of 1 to 3 holds.
    pub fn assert_pairs(&self, least: u64) {
        for one in GROUNDS {
            for later in GROUNDS.into_iter().filter(|&later| later > one) {
                let count = self.pairs[one][later];
                let told = later != 8 || one > 3;
                println!("grounds {one} and {later} held together {count} times");
                assert!(
                    !told || count >= least,
                    "{one} and {later} together {count} times"
                );
            }
        }
    }

    /// Each operation gave so many results with an occupied cell, with a free one, and
    /// unlike the frame.
    pub fn assert_results(&self, least: u64) {
        let (occupied, free, changed) = (self.occupied, self.free, self.changed);
        println!(
            "{} cases, occupied {occupied:?}, free {free:?}, changed {changed:?}",
            self.cases
        );
        for counts in [occupied, free, changed] {
            let enough = counts.iter().all(|&count| count >= least);
            assert!(enough, "results of the four operations {counts:?}");
        }
    }

    /// Each operation gave so many results with a cell that isn't measured.
    pub fn assert_unmeasured(&self, least: u64) {
        println!("not measured {:?}", self.unmeasured);
        let enough = self.unmeasured.iter().all(|&count| count >= least);
        assert!(enough, "not measured {:?}", self.unmeasured);
    }

    /// Plans of each number of stages up to this one ran so often.
    pub fn assert_stages(&self, most: usize, least: u64) {
        println!("plans by stages {:?}", self.stages);
        let enough = self.stages[..=most].iter().all(|&count| count >= least);
        assert!(enough, "plans by stages {:?}", self.stages);
    }
}
