//! Counts of what the cases met, so that a family can't miss a ground unseen.

use crate::cases::{Call, Case};
use crate::check::Outcome;
use crate::reference::grounds::{first, SHAPE};
use crate::reference::holding;
use crate::reference::points::excess;

/// The sides of ground 8, as `excess` has them.
const SIDES: [&str; 6] = ["w", "h", "least x", "least y", "greatest x", "greatest y"];

/// Counts by ground are at the ground's number; 0 stands for success.
pub struct Tally {
    call: Call,
    answers: [u64; 15],
    /// In range with this side at its limit.
    at_limit: [u64; 6],
    /// Out of range by this side alone, and by one.
    one_past: [u64; 6],
    /// Answered by the first ground while the second holds too.
    pairs: [[u64; 15]; 15],
    /// First ground of each list by itself, in the calls on two.
    lists: [[u64; 5]; 5],
}

impl Tally {
    pub fn new(call: Call) -> Tally {
        let (answers, at_limit, one_past) = ([0; 15], [0; 6], [0; 6]);
        Tally {
            call,
            answers,
            at_limit,
            one_past,
            pairs: [[0; 15]; 15],
            lists: [[0; 5]; 5],
        }
    }

    pub fn note(&mut self, outcome: &Outcome) {
        self.answers[ground(outcome.answer)] += 1;
        let Ok(points) = &outcome.points else { return };
        let sides = excess(points);
        let beyond = sides.iter().filter(|&&over| over > 0).count();
        for (i, &over) in sides.iter().enumerate() {
            self.at_limit[i] += u64::from(beyond == 0 && over == 0);
            self.one_past[i] += u64::from(beyond == 1 && over == 1);
        }
    }

    /// Notes which grounds hold together, and that the answer is the first of them.
    pub fn note_grounds(&mut self, case: &Case, outcome: &Outcome) {
        let held = holding(case, outcome.points.as_deref().ok());
        let answer = ground(outcome.answer);
        let least = if held == 0 {
            0
        } else {
            held.trailing_zeros() as usize
        };
        assert_eq!(
            answer, least,
            "{case}: the answer isn't the first ground that holds"
        );
        for later in (answer + 1..15).filter(|later| held >> later & 1 == 1) {
            self.pairs[answer][later] += 1;
        }
        if self.call.takes_two_lists() {
            let of = |list: &[u32]| first(&SHAPE, &[list]).unwrap_or(0) as usize;
            self.lists[of(&case.a)][of(&case.b)] += 1;
        }
    }

    /// Every one of these answers came up at least so often, and no other did at all.
    pub fn assert_answers(&self, wanted: &[usize], least: u64) {
        let (name, counts) = (self.call.name(), self.answers);
        println!("{name}: answers {counts:?}");
        for (number, &count) in counts.iter().enumerate() {
            let right = if wanted.contains(&number) {
                count >= least
            } else {
                count == 0
            };
            assert!(
                right,
                "{name}: ground {number} (0: success) came up {count} times, {counts:?}"
            );
        }
    }

    /// Every side came up at its limit and, those given, one past it.
    pub fn assert_sides(&self, can_pass: &[usize], least: u64) {
        let (name, at_limit, one_past) = (self.call.name(), self.at_limit, self.one_past);
        println!("{name}: sides at their limit {at_limit:?}, one past it {one_past:?}");
        for side in 0..6 {
            assert!(
                at_limit[side] >= least,
                "{name}: {} at its limit, {at_limit:?}",
                SIDES[side]
            );
            let enough = !can_pass.contains(&side) || one_past[side] >= least;
            assert!(
                enough,
                "{name}: {} one past its limit, {one_past:?}",
                SIDES[side]
            );
        }
    }

    /// Any two of these grounds held together at least so often.
    pub fn assert_pairs(&self, grounds: &[usize], least: u64) {
        let name = self.call.name();
        for &one in grounds {
            for &later in grounds.iter().filter(|&&later| later > one) {
                if (later == 8 && one < 4) || (later == 10 && one <= 4) {
                    continue; // the points aren't given then
                }
                let count = self.pairs[one][later];
                println!("{name}: grounds {one} and {later} held together {count} times");
                assert!(
                    count >= least,
                    "{name}: {one} and {later} together {count} times"
                );
            }
        }
    }

    /// Each of grounds 1 to 4 or none came up in one list with each in the other.
    pub fn assert_lists(&self, least: u64) {
        let (name, lists) = (self.call.name(), self.lists);
        println!("{name}: first ground of each list {lists:?}");
        let enough = lists.iter().flatten().all(|&count| count >= least);
        assert!(
            enough,
            "{name}: grounds of one list against the other's {lists:?}"
        );
    }
}

/// The ground that an answer names, 0 for success.
fn ground(answer: i64) -> usize {
    (-answer).max(0) as usize
}
