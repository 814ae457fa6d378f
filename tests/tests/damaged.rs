//! (c) A million random damaged cases for each call; for planning, which searches
//! where the damage leaves a shape, fewer.

use musqerpi_tests::cases::Call;
use musqerpi_tests::check::Checker;
use musqerpi_tests::lists::Maker;
use musqerpi_tests::tally::Tally;

const CASES: u32 = 1_000_000;
const PLANNING_CASES: u32 = 100_000;

/// Runs the family; in a fourth of it, any two of the call's grounds hold together
/// some hundred times.
fn run(call: Call, grounds: &[usize], seed: u64) -> Tally {
    let tally = run_some(CASES, call, grounds, seed);
    tally.assert_pairs(grounds, 300);
    tally
}

fn run_some(cases: u32, call: Call, grounds: &[usize], seed: u64) -> Tally {
    let (mut maker, mut checker) = (Maker::new(seed), Checker::new(!seed));
    let mut tally = Tally::new(call);
    for i in 0..cases {
        let case = maker.damaged(call);
        let outcome = checker.check(&case);
        tally.note(&outcome);
        if i % 4 == 0 {
            tally.note_grounds(&case, &outcome);
        }
    }
    let answers = [&[0], grounds].concat();
    tally.assert_answers(&answers, 1000);
    tally
}

#[test]
fn plans_turned_back() {
    run(Call::ShapeOfPlan, &[1, 2, 3, 5, 6, 7, 8, 9], 201);
}

#[test]
fn shapes_moved() {
    run(Call::Move, &[1, 2, 3, 4, 8, 9], 202);
}

#[test]
fn shapes_joined() {
    run(Call::Join, &[1, 2, 3, 4, 8, 9], 203).assert_lists(300);
}

#[test]
fn shapes_summed() {
    run(Call::Sum, &[1, 2, 3, 4, 8, 9], 204).assert_lists(300);
}

#[test]
fn shapes_planned() {
    let grounds = [1, 2, 3, 4, 9, 10];
    run_some(PLANNING_CASES, Call::Plan, &grounds, 205).assert_pairs(&grounds, 30);
}
