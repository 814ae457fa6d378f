//! (d) Document 01's own cases that touch the calls on lists but planning, with their
//! answers written out. Each also goes through the reference.

use musqerpi_tests::cases::{Call, Case};
use musqerpi_tests::expect::{gives, refused};
use musqerpi_tests::reference::grounds::is_stage;

const ROW_OF_FOUR: [u32; 2] = [0x10000000, 0x2000000f];

/// A shape list with `rows` rows of one cell, or as many words as asked past 16.
fn tall(rows: u32) -> Vec<u32> {
    let row = |y: u32| 0x20000001 | y.min(15) << 16;
    [0x10000000].into_iter().chain((0..rows).map(row)).collect()
}

#[test]
fn the_row_of_four_cells() {
    let plan = [0x30000002, 0x40000f0f, 0x50000003, 0x50000005];
    gives(&Case::of_plan(&plan, 17), &ROW_OF_FOUR);
    gives(&Case::of_plan(&plan, 40), &ROW_OF_FOUR);
    refused(&Case::of_plan(&plan, 16), 9);
    let falling = [0x30000002, 0x40000f0f, 0x50000005, 0x50000003];
    refused(&Case::of_plan(&falling, 17), 7);
    let three_then_seven = [0x30000002, 0x40000f0f, 0x50000003, 0x50000007];
    gives(&Case::of_plan(&three_then_seven, 17), &ROW_OF_FOUR);
}

#[test]
fn one_point_plans() {
    gives(
        &Case::of_plan(&[0x30000000, 0x40000f0f], 17),
        &[0x10000000, 0x20000001],
    );
    gives(
        &Case::of_plan(&[0x30000000, 0x40000000], 17),
        &[0x100000ff, 0x20000001],
    );
    gives(
        &Case::of_plan(&[0x30000000, 0x4000000f], 17),
        &[0x100000f0, 0x20000001],
    );
    gives(
        &Case::of_plan(&[0x30000000, 0x40000f10], 17),
        &[0x10000000, 0x20000002],
    );
}

#[test]
fn the_eight_point_shape() {
    let plan = [0x30000003, 0x40000f0f, 0x50000011, 0x50000021, 0x50000081];
    let shape = [
        0x10000000, 0x20000001, 0x20010006, 0x2002000a, 0x2003000c, 0x20040010,
    ];
    gives(&Case::of_plan(&plan, 17), &shape);
}

#[test]
fn place_30_passes_and_31_gives_6() {
    gives(
        &Case::of_plan(&[0x30000000, 0x4000001e], 17),
        &[0x100000f0, 0x20008000],
    );
    gives(
        &Case::of_plan(&[0x30000000, 0x40001e1e], 17),
        &[0x10000000, 0x200f8000],
    );
    refused(&Case::of_plan(&[0x30000000, 0x4000001f], 17), 6);
    refused(&Case::of_plan(&[0x30000000, 0x40001f00], 17), 6);
    refused(&Case::of_plan(&[0x30000001, 0x4000001e, 0x50000003], 17), 8);
}

#[test]
fn lists_of_17_words_pass_and_18_give_1() {
    let (passes, fails) = (tall(16), tall(17));
    gives(&Case::of_move(&passes, 0, 0, 17), &passes);
    refused(&Case::of_move(&fails, 0, 0, 17), 1);
    let one = [0x10000000, 0x20000001];
    for call in [Call::Join, Call::Sum] {
        gives(&Case::of_two(call, &passes, &one, 17), &passes);
        refused(&Case::of_two(call, &fails, &one, 17), 1);
        refused(&Case::of_two(call, &one, &fails, 17), 1);
    }
}

#[test]
fn plans_of_32_words_pass_and_33_give_1() {
    let plan = |n: u32| {
        let stages = (0..n).map(|k| if k < 15 { 0x50000003 } else { 0x50000009 });
        [0x30000000 | n, 0x40000000]
            .into_iter()
            .chain(stages)
            .collect::<Vec<u32>>()
    };
    let full: Vec<u32> = (0..16).map(|y| 0x2000_ffff | y << 16).collect();
    gives(
        &Case::of_plan(&plan(30), 17),
        &[&[0x100000ff], &full[..]].concat(),
    );
    refused(&Case::of_plan(&plan(31), 17), 1);
}

#[test]
fn moves_to_the_limits() {
    let cell = [0x10000000, 0x20000001];
    gives(
        &Case::of_move(&cell, 15, -15, 17),
        &[0x100000f0, 0x20008000],
    );
    for (dx, dy) in [
        (16, 0),
        (0, 16),
        (-16, 0),
        (0, -16),
        (i32::MIN, 0),
        (0, i32::MAX),
    ] {
        refused(&Case::of_move(&cell, dx, dy, 17), 8);
        refused(&Case::of_move(&cell, dx, dy, 0), 8);
    }
}

#[test]
fn empty_lists() {
    for out_n in [0, 17] {
        refused(&Case::of_plan(&[], out_n), 1);
        refused(&Case::of_move(&[], 0, 0, out_n), 1);
        for call in [Call::Join, Call::Sum] {
            refused(&Case::of_two(call, &[], &[], out_n), 1);
        }
    }
}

#[test]
fn there_are_399_stages() {
    let count = (0..512).filter(|&mask| is_stage(mask)).count();
    assert_eq!(count, 399, "{count:x} stages");
}
