//! The goals of planning, each with what this run has and whether that meets it.

use super::by_family::{all_totals, Times};
use super::hard::Hard;
use super::totals;
use crate::print_goal;

/// The library's time over the port's, at most.
const RATIO: f64 = 1.5;

/// Seconds that no shape may take, and that no family's median may.
const WORST: f64 = 0.5;
const MEDIAN: f64 = 100e-6;

/// Seconds of the port below which a hard row's own ratio isn't looked at.
const SHORTEST: f64 = 10e-6;

fn greatest(values: impl Iterator<Item = f64>) -> f64 {
    values.fold(0.0, f64::max)
}

/// Library over port.
fn ratio([library, port]: [f64; 2]) -> f64 {
    library / port
}

pub fn print(families: &[Times], hard: &Hard) {
    println!("goals");
    let found = format!("{} of {}", hard.right, hard.rows);
    print_goal("every hard row right", found, hard.right == hard.rows);

    let worst = greatest(hard.times.iter().map(|pair| pair[0]));
    let found = format!("{worst:.3} s");
    let met = hard.times.len() == hard.rows && worst < WORST;
    print_goal("no hard row over 0.5 s", found, met);

    let (all, rows) = (ratio(all_totals(families)), ratio(totals(&hard.times)));
    let found = format!("{all:.2} over the families, {rows:.2} over the hard rows");
    let met = all <= RATIO && rows <= RATIO;
    print_goal("library over port at most 1.5, by totals", found, met);

    let medians = |family: &Times| [family.spread(0)[0], family.spread(1)[0]];
    let median = greatest(families.iter().map(|family| medians(family)[0]));
    let found = format!("{:.0} us at the worst family", median * 1e6);
    print_goal("family medians under 100 us", found, median < MEDIAN);

    let worst = greatest(families.iter().map(|family| family.spread(0)[2]));
    let found = format!("{worst:.3} s");
    print_goal("no shape of a family over 0.5 s", found, worst < WORST);

    let of_medians = greatest(families.iter().map(|family| ratio(medians(family))));
    let searched = hard.times.iter().filter(|pair| pair[1] >= SHORTEST);
    let of_rows = greatest(searched.map(|&pair| ratio(pair)));
    println!(
        "library over port at most: {of_medians:.2} by a family's medians, \
         {of_rows:.2} on a hard row of 10 us or more"
    );
}
