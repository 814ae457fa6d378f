//! (k) The grounds of the plan list in the four operations, each alone. Answers are
//! written out, and compared with the reference; a refusal changes nothing.

use musqerpi_tests::operations::check::Checker;
use musqerpi_tests::operations::{plan_list, Case, Op, OPS};
use musqerpi_tests::reference::grounds::is_stage;

/// A frame of two columns and one row, 1 0, by this plan, images just long enough.
fn small(op: Op, plan: &[u32]) -> Case {
    Case::new(op, plan, (2, 1), &[1, 0], (17 * 16, 17 * 16))
}

/// The plan list gives this answer by all four operations.
fn plan_answers(checker: &mut Checker, plan: &[u32], wanted: usize) {
    for op in OPS {
        checker.answers(&small(op, plan), wanted);
    }
}

#[test]
fn lengths_of_the_plan() {
    let mut checker = Checker::new(701);
    plan_answers(&mut checker, &[], 1);
    plan_answers(&mut checker, &[0x30000000], 1);
    plan_answers(&mut checker, &[0x40000f0f], 1);
    let long = |n: u32| {
        let masks: Vec<u32> = (0..n).map(|k| if k < 15 { 3 } else { 9 }).collect();
        plan_list((-15, -15), &masks)
    };
    for n in 0..=30 {
        plan_answers(&mut checker, &long(n), 0);
    }
    for n in [31, 32, 33, 60, 254, 255] {
        plan_answers(&mut checker, &long(n), 1);
    }
}

#[test]
fn kinds_at_every_place() {
    let mut checker = Checker::new(702);
    let plan = plan_list((-1, 0), &[3, 3, 9]);
    for place in 0..plan.len() {
        for kind in 0..16 {
            let mut plan = plan.clone();
            let right = plan[place] >> 28 == kind;
            plan[place] = plan[place] & 0x0fff_ffff | kind << 28;
            plan_answers(&mut checker, &plan, if right { 0 } else { 2 });
        }
    }
}

#[test]
fn extra_bits_at_every_place() {
    let mut checker = Checker::new(703);
    let plan = plan_list((-1, 0), &[3, 3, 9]);
    for (place, named) in [(0, 8), (1, 16), (2, 9), (3, 9), (4, 9)] {
        for bit in named..28 {
            let mut plan = plan.clone();
            plan[place] |= 1 << bit;
            plan_answers(&mut checker, &plan, 3);
            plan[4] ^= 0xf000_0000;
            plan_answers(&mut checker, &plan, 2);
        }
    }
}

#[test]
fn counts() {
    let mut checker = Checker::new(704);
    for n in [0, 1, 2, 5] {
        let plan = plan_list((0, 0), &vec![3; n]);
        for count in 0..256 {
            let mut plan = plan.clone();
            plan[0] = 0x3000_0000 | count;
            let wanted = if count as usize == n { 0 } else { 5 };
            plan_answers(&mut checker, &plan, wanted);
        }
    }
}

/// All place fields, with no stage and with stages that reach 1 and 14.
#[test]
fn places() {
    let mut checker = Checker::new(705);
    let plans: [(&[u32], u32); 3] = [(&[], 0), (&[10], 1), (&[273; 7], 14)];
    for (masks, extent) in plans {
        for field in 0..256 {
            let wanted = match field {
                31.. => 6,
                _ if field + extent > 30 => 8,
                _ => 0,
            };
            for place in [field, field << 8, field | field << 8] {
                let mut plan = plan_list((0, 0), masks);
                plan[1] = 0x4000_0000 | place;
                plan_answers(&mut checker, &plan, wanted);
            }
        }
    }
    checker.tally.assert_answers(&[0, 6, 8], 40);
}

#[test]
fn every_mask_at_every_place() {
    let mut checker = Checker::new(706);
    for mask in 0..512 {
        let (stage, least, most) = (is_stage(mask), mask >= 3, mask <= 9);
        let wanted = |right: bool| if right { 0 } else { 7 };
        plan_answers(&mut checker, &plan_list((0, 0), &[mask]), wanted(stage));
        let after = plan_list((0, 0), &[3, mask]);
        plan_answers(&mut checker, &after, wanted(stage && least));
        let before = plan_list((0, 0), &[mask, 9]);
        plan_answers(&mut checker, &before, wanted(stage && most));
    }
    checker.tally.assert_answers(&[0, 7], 100);
}

/// w or h above 15, and each side of the range; the plan's points alone decide.
#[test]
fn ranges() {
    let mut checker = Checker::new(707);
    let wide = |n: usize, last: &[u32]| [&vec![5; n][..], last].concat();
    let tall = |n: usize, first: &[u32]| [first, &vec![65; n][..]].concat();
    let mut answers = |offset, masks: &[u32], wanted| {
        plan_answers(&mut checker, &plan_list(offset, masks), wanted);
    };
    for dx in -15..=15 {
        answers((dx, 0), &wide(7, &[]), if dx <= 1 { 0 } else { 8 });
        answers((dx, 0), &wide(8, &[]), 8);
        answers((dx, 0), &wide(7, &[11]), if dx <= 0 { 0 } else { 8 });
        answers((0, dx), &tall(7, &[]), if dx <= 1 { 0 } else { 8 });
        answers((0, dx), &tall(8, &[]), 8);
        answers((0, dx), &tall(7, &[9]), if dx <= 0 { 0 } else { 8 });
        answers((-15, dx), &tall(8, &[]), 8);
    }
    checker.tally.assert_answers(&[0, 8], 40);
}
