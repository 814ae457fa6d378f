//! The families of shapes: a table of counts, and one of times.

use super::{after, answer, before, measure, spread, totals, Effort, LIBRARY, PORT};
use crate::families::{all, Family};
use musqerpi_tests::cases::hex;

/// The median seconds of library and port on each shape of a family that was finished.
pub struct Times {
    pub name: String,
    pub each: Vec<[f64; 2]>,
}

impl Times {
    /// Median, 99th percentile and worst of the library's or the port's.
    pub fn spread(&self, engine: usize) -> [f64; 3] {
        spread(self.each.iter().map(|pair| pair[engine]).collect())
    }
}

/// Library and port answer and write the same.
fn assert_agreement(shape: &[u32]) {
    let ((found, ours), (expected, theirs)) = (answer(LIBRARY, shape), answer(PORT, shape));
    assert!(
        found == expected && ours == theirs,
        "{}: library answers {found} and {}, port {expected} and {}",
        hex(shape),
        hex(&ours),
        hex(&theirs)
    );
}

fn counts(efforts: &[Effort], of: fn(&Effort) -> u64) -> String {
    let spread = spread(efforts.iter().map(|effort| of(effort) as f64).collect());
    spread.map(|count| format!("{count:>7}")).concat()
}

fn given_up(efforts: &[Effort]) -> usize {
    efforts.iter().filter(|effort| effort.gave_up).count()
}

/// One row of the table of counts; what the plain and the quick search took is answered.
fn print_counts(family: &Family) -> [Vec<Effort>; 2] {
    let plain: Vec<Effort> = family.shapes.iter().map(|shape| before(shape)).collect();
    let quick: Vec<Effort> = family.shapes.iter().map(|shape| after(shape)).collect();
    println!(
        "{:<24}{:>7}{:>7}{:>6}{}{}{}{}",
        family.name,
        family.shapes.len(),
        given_up(&plain),
        given_up(&quick),
        counts(&plain, |effort| effort.nodes),
        counts(&plain, |effort| effort.tests),
        counts(&quick, |effort| effort.nodes),
        counts(&quick, |effort| effort.tests),
    );
    [plain, quick]
}

/// One row of the table of times.
fn print_times(family: &Family, [plain, quick]: &[Vec<Effort>; 2]) -> Option<Times> {
    let pairs = family.shapes.iter().zip(quick);
    let finished = pairs.filter(|(_, effort)| !effort.gave_up);
    let measured = finished.map(|(shape, effort)| {
        assert_agreement(shape);
        measure(shape, effort.tests)
    });
    let (name, each) = (family.name.clone(), measured.collect::<Vec<_>>());
    if each.is_empty() {
        println!("{name:<24} none finished");
        return None;
    }
    let times = Times { name, each };
    let (library, port, sums) = (times.spread(0), times.spread(1), totals(&times.each));
    let once = spread(plain.iter().map(|effort| effort.seconds).collect());
    let micros = |time: f64| format!("{:>9.0}", time * 1e6);
    println!(
        "{:<24}{}{}{}{:>9.2}{:>9.2}",
        times.name,
        once.map(micros).concat(),
        library.map(micros).concat(),
        port.map(micros).concat(),
        library[0] / port[0],
        sums[0] / sums[1]
    );
    Some(times)
}

/// Both tables; the times of each family of which a shape was finished are answered.
pub fn run() -> Vec<Times> {
    let families = all();
    println!(
        "{:<24}{:>7}{:>13}{:^42}{:^42}",
        "", "", "given up", "plain", "quick"
    );
    println!(
        "{:<24}{:>7}{:>7}{:>6}{:^21}{:^21}{:^21}{:^21}",
        "family", "shapes", "plain", "quick", "nodes", "tests", "nodes", "tests"
    );
    let efforts: Vec<[Vec<Effort>; 2]> = families.iter().map(print_counts).collect();
    println!();
    println!(
        "{:<24}{:^27}{:^27}{:^27}{:^18}",
        "", "plain, us", "library, us", "port, us", "library over port"
    );
    println!(
        "{:<24}{:27}{:27}{:27}{:>9}{:>9}",
        "family", "", "", "", "medians", "totals"
    );
    let pairs = families.iter().zip(&efforts);
    let times: Vec<Times> = pairs.filter_map(|(f, e)| print_times(f, e)).collect();
    let sums = all_totals(&times);
    let ratio = sums[0] / sums[1];
    println!(
        "all: library {:.3} s, port {:.3} s, ratio {ratio:.2}",
        sums[0], sums[1]
    );
    times
}

/// Library and port summed over all families.
pub fn all_totals(families: &[Times]) -> [f64; 2] {
    let sums: Vec<[f64; 2]> = families.iter().map(|times| totals(&times.each)).collect();
    totals(&sums)
}
