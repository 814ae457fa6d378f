//! Counts of what the cases met, so that a family can't miss a ground or an extreme share
//! unseen.

use super::grounds::{holding, GROUNDS};
use super::reference::Share;
use super::Case;
use std::collections::BTreeMap;

/// Counts by ground are at the ground's number; 0 stands for success.
#[derive(Default)]
pub struct Tally {
    answers: BTreeMap<i64, u64>,
    /// Answered by the first ground while the second holds too.
    pairs: BTreeMap<(i64, i64), u64>,
    /// Quotients of 0 and of 10,000 and others.
    quotients: [u64; 3],
    /// Remainders of 0, of the measured cells less 1, and others, where those are two or more.
    remainders: [u64; 3],
}

impl Tally {
    pub fn note(&mut self, case: &Case, result: Result<Share, i64>) {
        *self.answers.entry(result.err().unwrap_or(0)).or_default() += 1;
        let held = holding(case);
        for &later in held.iter().skip(1) {
            *self.pairs.entry((held[0], later)).or_default() += 1;
        }
        let Ok(share) = result else { return };
        self.quotients[place_in([0, 10_000], share.quotient)] += 1;
        let last = case.measured() - 1;
        if last > 0 {
            self.remainders[place_in([0, last], share.remainder.into())] += 1;
        }
    }

    /// Every one of these answers came up at least so often, and no other did at all.
    pub fn assert_answers(&self, wanted: &[i64], least: u64) {
        println!("answers {:?}", self.answers);
        let others = self.answers.keys().find(|number| !wanted.contains(number));
        assert_eq!(others, None, "another answer (0: success)");
        for number in wanted {
            let count = self.answers.get(number).copied().unwrap_or(0);
            assert!(
                count >= least,
                "ground {number} (0: success) came up {count} times"
            );
        }
    }

    /// Any two grounds held together at least so often.
    pub fn assert_pairs(&self, least: u64) {
        println!("held together {:?}", self.pairs);
        for (i, &one) in GROUNDS.iter().enumerate() {
            for &later in &GROUNDS[i + 1..] {
                let count = self.pairs.get(&(one, later)).copied().unwrap_or(0);
                assert!(count >= least, "{one} and {later} together {count} times");
            }
        }
    }

    /// Both extremes, and numbers between them, came up at least so often.
    pub fn assert_shares(&self, least: u64) {
        let (quotients, remainders) = (self.quotients, self.remainders);
        println!("quotients {quotients:?}, remainders {remainders:?}: least, greatest, others");
        let enough = quotients.into_iter().chain(remainders);
        let enough = enough.min().is_some_and(|count| count >= least);
        assert!(enough, "quotients {quotients:?}, remainders {remainders:?}");
    }
}

/// 0 for the least, 1 for the greatest, 2 for another.
fn place_in(extremes: [i64; 2], number: i64) -> usize {
    let place = extremes.iter().position(|&extreme| extreme == number);
    place.unwrap_or(2)
}
