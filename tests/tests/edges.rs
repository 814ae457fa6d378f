//! (a) Every short list over a set of edge words, for each call.

use musqerpi_tests::cases::{Call, Case};
use musqerpi_tests::check::Checker;
use musqerpi_tests::lists::EDGE_OFFSETS;
use musqerpi_tests::reference::grounds::{first, SHAPE};

// The edge words: each kind with its fields at 0, at their greatest and about their
// limits, with the bit past its named fields, and with the highest bit below the kind.
const KIND_0: &[u32] = &[0x00000000, 0x00000001, 0x0fffffff];
const ANCHORS: &[u32] = &[
    0x10000000, 0x1000000f, 0x100000f0, 0x100000ff, 0x10000100, 0x18000000,
];
const ROWS: &[u32] = &[
    0x20000000, 0x20000001, 0x20008000, 0x2000ffff, 0x20010001, 0x200e8001, 0x200f0000, 0x200f0001,
    0x200f8000, 0x200fffff, 0x20100000, 0x20100001, 0x28000001,
];
const HEADS: &[u32] = &[
    0x30000000, 0x30000001, 0x30000002, 0x3000001e, 0x300000ff, 0x30000100, 0x38000000,
];
const PLACES: &[u32] = &[
    0x40000000, 0x40000f0f, 0x4000001e, 0x4000001f, 0x40001e00, 0x40001f00, 0x40001e1e, 0x400000ff,
    0x4000ff00, 0x4000ffff, 0x40010000, 0x40010f0f, 0x48000f0f,
];
const STAGES: &[u32] = &[
    0x50000000, 0x50000001, 0x50000003, 0x50000006, 0x50000009, 0x50000048, 0x50000100, 0x500001ff,
    0x50000200, 0x50000203, 0x58000003,
];
const UNUSED: &[u32] = &[0x60000000, 0x6fffffff, 0xf0000000, 0xf0000001, 0xffffffff];

fn edge_words() -> Vec<u32> {
    [KIND_0, ANCHORS, ROWS, HEADS, PLACES, STAGES, UNUSED].concat()
}

/// Output lengths: none, one short, just enough, more.
const OUTPUTS: [usize; 4] = [0, 16, 17, 23];
/// The same for a plan; 17 would do for a shape.
const PLAN_OUTPUTS: [usize; 5] = [0, 17, 31, 32, 38];

/// Valid shapes: one cell, a row, the window's far corner, two far cells, the full window.
fn fixed_shapes() -> Vec<Vec<u32>> {
    let full = (0..16).map(|y| 0x2000_ffff | y << 16);
    vec![
        vec![0x10000000, 0x20000001],
        vec![0x10000022, 0x2000000f],
        vec![0x10000000, 0x200f8000],
        vec![0x100000ff, 0x20000001, 0x200f8000],
        [0x10000088].into_iter().chain(full).collect(),
    ]
}

/// Every list of the length that starts with the prefix and goes on in edge words.
fn lists_after(prefix: &[u32], length: usize) -> Vec<Vec<u32>> {
    if prefix.len() == length {
        return vec![prefix.to_vec()];
    }
    let longer = |&word: &u32| lists_after(&[prefix, &[word]].concat(), length);
    edge_words().iter().flat_map(longer).collect()
}

/// Every list of length 0 to `greatest`.
fn lists_up_to(greatest: usize) -> Vec<Vec<u32>> {
    (0..=greatest)
        .flat_map(|length| lists_after(&[], length))
        .collect()
}

#[test]
fn plans_turned_back() {
    let mut checker = Checker::new(1);
    let mut plans = lists_up_to(2);
    plans.extend(lists_after(&[0x30000001, 0x40000f0f], 3));
    plans.extend(lists_after(&[0x30000002, 0x40001e1e], 4));
    plans.extend(lists_after(&[0x30000002, 0x40000000], 4));
    for plan in &plans {
        for out_n in OUTPUTS {
            checker.check(&Case::of_plan(plan, out_n));
        }
    }
}

#[test]
fn shapes_moved() {
    let mut checker = Checker::new(2);
    let mut shapes = lists_up_to(2);
    shapes.extend(lists_after(&[0x10000000], 3));
    for shape in &shapes {
        for dx in EDGE_OFFSETS {
            for dy in EDGE_OFFSETS {
                checker.check(&Case::of_move(shape, dx, dy, 17));
            }
        }
        for out_n in OUTPUTS {
            checker.check(&Case::of_move(shape, 0, 0, out_n));
            checker.check(&Case::of_move(shape, 16, 0, out_n));
        }
    }
}

#[test]
fn shapes_planned() {
    let mut checker = Checker::new(6);
    let mut shapes = lists_up_to(2);
    shapes.extend(lists_after(&[0x10000000], 3));
    shapes.extend(fixed_shapes());
    for shape in &shapes {
        for out_n in PLAN_OUTPUTS {
            checker.check(&Case::of_planning(shape, out_n));
        }
    }
}

/// Both calls on two lists, both ways, with each output length.
fn check_both_ways(checker: &mut Checker, a: &[u32], b: &[u32]) {
    for call in [Call::Join, Call::Sum] {
        for out_n in OUTPUTS {
            checker.check(&Case::of_two(call, a, b, out_n));
            checker.check(&Case::of_two(call, b, a, out_n));
        }
    }
}

#[test]
fn pairs_of_the_shortest() {
    let mut checker = Checker::new(3);
    let lists = lists_up_to(1);
    for a in &lists {
        for b in &lists {
            check_both_ways(&mut checker, a, b);
        }
    }
}

#[test]
fn short_lists_against_fixed_ones() {
    let mut checker = Checker::new(4);
    let mut fixed = fixed_shapes();
    fixed.push(vec![]);
    fixed.push(vec![0x10000000, 0x20010001, 0x20000001]);
    fixed.push(vec![0x10000100, 0x20000001]);
    fixed.push(vec![0x10000000, 0x30000001]);
    for list in &lists_up_to(2) {
        for other in &fixed {
            check_both_ways(&mut checker, list, other);
        }
    }
}

#[test]
fn pairs_of_valid_shapes() {
    let mut checker = Checker::new(5);
    let mut shapes = lists_up_to(2);
    shapes.extend(lists_after(&[0x100000ff, 0x20000001], 3));
    shapes.extend(lists_after(&[0x10000000, 0x20008000], 3));
    shapes.extend(fixed_shapes());
    shapes.retain(|shape| first(&SHAPE, &[shape]).is_none());
    assert!(shapes.len() >= 30, "{} shapes", shapes.len());
    for a in &shapes {
        for b in &shapes {
            check_both_ways(&mut checker, a, b);
        }
    }
}
