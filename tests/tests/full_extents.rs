//! (n) Planning of 100,000 random shapes of full extents, w = h = 15, against a second
//! planner (reference/sums.rs), in the answer and in every word written. Each share of
//! them is a test of its own, so that they run side by side; in a share no two have the
//! same cells.
//!
//! The planner has a limit. A shape beyond it isn't compared, and another is drawn; each
//! share says how many at most.

use musqerpi_tests::cases::Case;
use musqerpi_tests::check::assert_plan_of;
use musqerpi_tests::expect::{library_gives, library_refuses};
use musqerpi_tests::lists::full::Kind;
use musqerpi_tests::lists::planning::KINDS;
use musqerpi_tests::lists::Maker;
use musqerpi_tests::reference::plans;
use musqerpi_tests::reference::plans::to_plan_list;
use musqerpi_tests::reference::points::{of_shape, Point};
use musqerpi_tests::reference::sums::{shortest, Answer};
use std::collections::HashSet;

/// Sums that the planner holds against one shape at most.
const LIMIT: usize = 100_000;

/// So many shapes of a kind are compared; at least so many have a chain, at least so many
/// are refused, and at most so many more are drawn that are beyond the limit.
struct Share {
    kind: Kind,
    seed: u64,
    shapes: usize,
    chains: usize,
    refused: usize,
    beyond: usize,
}

const fn share(kind: Kind, seed: u64, shapes: usize, least: (usize, usize), most: usize) -> Share {
    Share {
        kind,
        seed,
        shapes,
        chains: least.0,
        refused: least.1,
        beyond: most,
    }
}

const CELLS: Share = share(Maker::full_cells, 501, 30_000, (1, 29_000), 20);
const SUMS: [Share; 2] = [
    share(Maker::full_sum, 502, 12_500, (12_500, 0), 100),
    share(Maker::full_sum, 503, 12_500, (12_500, 0), 100),
];
const FLIPPED: Share = share(Maker::full_sum_flipped, 504, 3_000, (20, 2_500), 750);
const WITHOUT: Share = share(Maker::full_sum_without_a_cell, 505, 200, (1, 150), 170);
const HOLES: Share = share(Maker::full_with_holes, 506, 18_000, (5, 17_000), 30);
const DISKS: Share = share(Maker::full_disk_flipped, 507, 200, (1, 150), 80);
const BLOBS: Share = share(Maker::full_blob_flipped, 508, 10_000, (5, 9_500), 160);
const OCTAGONS: Share = share(Maker::full_octagon, 509, 12_000, (11_000, 100), 110);
const CHANGED: Share = share(Maker::full_octagon_flipped, 510, 1_600, (10, 1_400), 230);

#[test]
fn the_shares_add_up() {
    let one_by_one = [
        CELLS, FLIPPED, WITHOUT, HOLES, DISKS, BLOBS, OCTAGONS, CHANGED,
    ];
    let all: Vec<&Share> = one_by_one.iter().chain(&SUMS).collect();
    let sum = |count: fn(&Share) -> usize| all.iter().map(|share| count(share)).sum::<usize>();
    assert_eq!(sum(|share| share.shapes), 100_000);
    assert!(sum(|share| share.chains) >= 10_000 && sum(|share| share.refused) >= 10_000);
    assert!(sum(|share| share.beyond) < 2_000);
}

fn try_share(share: &Share) {
    let (mut maker, mut drawn) = (Maker::new(share.seed), HashSet::new());
    let (mut chains, mut refused, mut beyond) = (0, 0, 0);
    while chains + refused < share.shapes && beyond <= share.beyond {
        let points = (share.kind)(&mut maker);
        let shape = maker.placed(&points);
        if !drawn.insert(shape[1..].to_vec()) {
            continue;
        }
        match compare(&shape) {
            Answer::Plan(_) => chains += 1,
            Answer::NoChain => refused += 1,
            Answer::TooMany => beyond += 1,
        }
    }
    println!(
        "seed {}: {chains} with a chain, {refused} refused",
        share.seed
    );
    println!("beyond the limit and drawn again: {beyond}");
    assert!(beyond <= share.beyond, "too many beyond the limit");
    assert!(chains >= share.chains && refused >= share.refused);
}

/// What the planner says, and the library too if that is an answer.
fn compare(shape: &[u32]) -> Answer {
    let (case, points) = (Case::of_planning(shape, 32), of_shape(shape));
    let answer = shortest(&points, LIMIT);
    match &answer {
        Answer::Plan(masks) => {
            let list = to_plan_list(&points, masks);
            assert_plan_of(&points, &list);
            library_gives(&case, &list);
        }
        Answer::NoChain => library_refuses(&case, 10),
        Answer::TooMany => {}
    }
    answer
}

#[test]
fn cells_at_random() {
    try_share(&CELLS);
}

#[test]
fn sums_of_random_stages() {
    try_share(&SUMS[0]);
}

#[test]
fn more_sums_of_random_stages() {
    try_share(&SUMS[1]);
}

#[test]
fn sums_with_cells_flipped() {
    try_share(&FLIPPED);
}

#[test]
fn sums_without_a_cell() {
    try_share(&WITHOUT);
}

#[test]
fn rectangles_with_holes() {
    try_share(&HOLES);
}

#[test]
fn disks_with_cells_flipped() {
    try_share(&DISKS);
}

#[test]
fn blobs_with_cells_flipped() {
    try_share(&BLOBS);
}

#[test]
fn octagons() {
    try_share(&OCTAGONS);
}

#[test]
fn octagons_with_cells_flipped() {
    try_share(&CHANGED);
}

/// The planner and the exhaustive search answer the same.
fn assert_same(points: &[Point]) -> bool {
    let wanted = plans::shortest(points);
    let found = shortest(points, usize::MAX);
    let expected = wanted.clone().map_or(Answer::NoChain, Answer::Plan);
    assert_eq!(found, expected, "{points:?}");
    wanted.is_some()
}

/// The planner itself on every shape of a window of 4 by 4.
#[test]
fn the_planner_on_four_by_four() {
    let mut chains = 0;
    for shape in 1..=0xffffu32 {
        let cells = (0..16i64).filter(|bit| shape >> bit & 1 == 1);
        let points: Vec<Point> = cells.map(|bit| (bit % 4, bit / 4)).collect();
        chains += u32::from(assert_same(&points));
    }
    println!("{chains} shapes with a chain");
    assert!(chains >= 1000);
}

/// And on random shapes, w and h up to 7.
#[test]
fn the_planner_on_random_shapes() {
    println!("seed 511");
    let (mut maker, mut chains) = (Maker::new(511), 0);
    for kind in KINDS {
        for _ in 0..5000 {
            let shape = maker.small_shape(kind, 7);
            chains += u32::from(assert_same(&of_shape(&shape)));
        }
    }
    println!("{chains} shapes with a chain");
    assert!((5000..10_000).contains(&chains));
}
