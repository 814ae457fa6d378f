//! (b) A million random valid cases for each call but planning, which has planning.rs.

use musqerpi_tests::cases::Call;
use musqerpi_tests::check::Checker;
use musqerpi_tests::lists::Maker;
use musqerpi_tests::tally::Tally;

const CASES: u32 = 1_000_000;

fn run(call: Call, seed: u64) -> Tally {
    let (mut maker, mut checker) = (Maker::new(seed), Checker::new(!seed));
    let mut tally = Tally::new(call);
    for _ in 0..CASES {
        let case = maker.case(call);
        tally.note(&checker.check(&case));
    }
    tally.assert_answers(&[0, 8], 100_000);
    tally
}

#[test]
fn plans_turned_back() {
    // A place field keeps the least x and y from going below -15.
    run(Call::ShapeOfPlan, 101).assert_sides(&[0, 1, 4, 5], 1000);
}

#[test]
fn shapes_moved() {
    // A move keeps w and h.
    run(Call::Move, 102).assert_sides(&[2, 3, 4, 5], 1000);
}

#[test]
fn shapes_joined() {
    // Points of a shape are never beyond -15 to 15, so a union's aren't either.
    run(Call::Join, 103).assert_sides(&[0, 1], 1000);
}

#[test]
fn shapes_summed() {
    run(Call::Sum, 104).assert_sides(&[0, 1, 2, 3, 4, 5], 1000);
}
