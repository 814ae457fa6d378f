//! (r) The grounds of the load in ten-thousandths, alone and together. Answers are written
//! out or the first that holds; a refusal leaves the remainder as it is.

use musqerpi_tests::frames::library::load;
use musqerpi_tests::shares::check::Checker;
use musqerpi_tests::shares::grounds::{holding, GROUNDS};
use musqerpi_tests::shares::library::share_of_null;
use musqerpi_tests::shares::makers::{Maker, BAD_CELLS, BAD_SIDES};
use musqerpi_tests::shares::Case;

const GOOD_SIDES: [usize; 5] = [1, 2, 16, 239, 240];

/// So many free cells.
fn free(size: (usize, usize), n: usize) -> Case {
    Case::new(size, &vec![0; n], u32::MAX)
}

/// Each ground alone and each set of them: the first in order is the answer, and the load
/// has the same, but for 16, which it doesn't have.
#[test]
fn every_set_of_grounds() {
    let (mut maker, mut checker) = (Maker::new(1101), Checker::new(1102));
    for set in 0..1 << GROUNDS.len() {
        let chosen = GROUNDS.iter().enumerate();
        let chosen = chosen.filter(|(i, _)| set >> i & 1 == 1);
        let held: Vec<i64> = chosen.map(|(_, &ground)| ground).collect();
        for _ in 0..100 {
            let case = maker.refused(&held);
            let mut found = holding(&case);
            if case.frame.len() <= 1 && !held.contains(&16) {
                found.retain(|&ground| ground != 16); // no cell, or just a bad one
            }
            assert_eq!(found, held, "{case}");
            let Some(&first) = held.first() else {
                checker.gives(&case, (10_000, 0));
                continue;
            };
            checker.refuses(&case, first);
            let answer = load(case.w, case.h, &case.frame);
            let wanted = if first == 16 { 0 } else { -first };
            assert_eq!(answer, wanted, "the load of {case}");
        }
    }
    checker.tally.assert_answers(&[0, 11, 12, 13, 16], 100);
    checker.tally.assert_pairs(400);
}

/// No ground, each ground and each set of them on frames written out, W or H being wrong.
#[test]
fn order_written_out() {
    let mut checker = Checker::new(1103);
    let frames: [(usize, &[u8], i64); 12] = [
        (2, &[1, 0, 1, 1], 0),
        (2, &[1, 0, 1, 3], 13),
        (2, &[2, 2, 2, 2], 16),
        (2, &[2, 2, 2, 3], 13),
        (2, &[2, 2, 2], 12),
        (2, &[1, 0, 1], 12),
        (2, &[3, 0, 1], 12),
        (0, &[], 11),
        (0, &[1], 11),
        (241, &[2; 482], 11),
        (241, &[3; 482], 11),
        (241, &[3], 11),
    ];
    for (side, cells, ground) in frames {
        for size in [(side, 2), (2, side)] {
            let case = Case::new(size, cells, u32::MAX);
            match ground {
                0 => checker.gives(&case, (7_500, 0)),
                _ => checker.refuses(&case, ground),
            }
        }
    }
}

/// Few enough cells to be laid out, else some.
fn few(n: usize) -> usize {
    if n < 70_000 {
        n
    } else {
        300
    }
}

/// Sides that no frame has, with as many cells as their product cut to the machine's size,
/// or as the product of the sides cut to 8, 16 or 32 bits.
#[test]
fn sizes() {
    let mut checker = Checker::new(1104);
    for bad in BAD_SIDES {
        for other in BAD_SIDES.into_iter().chain(GOOD_SIDES) {
            let cut = |bits: u32| (bad & ((1 << bits) - 1)) * (other & ((1 << bits) - 1));
            let products = [0, bad.wrapping_mul(other), cut(8), cut(16), cut(32)];
            for n in products.map(few) {
                checker.refuses(&free((bad, other), n), 11);
                checker.refuses(&free((other, bad), n), 11);
            }
        }
    }
    checker.tally.assert_answers(&[11], 3_000);
}

/// Products that are the frame's length once they, or the sides, are cut to fewer bits.
#[test]
fn products_that_wrap_around() {
    let mut checker = Checker::new(1105);
    let (half, far) = (1 << 63, 1 << 32);
    let sizes = [
        ((far, far), 0),
        ((half, 2), 0),
        ((half, 240), 0),
        ((half + 3, 2), 6),
        ((half / 2 + 5, 4), 20),
        ((usize::MAX, usize::MAX), 1),
        ((usize::MAX - 1, usize::MAX), 2),
        ((usize::MAX - 14, usize::MAX - 15), 240),
        ((far + 3, 2), 6),
        ((far + 240, far + 240), 57_600),
        ((1 << 16, 1 << 16), 0),
        ((256 + 3, 256 + 2), 6),
    ];
    for ((w, h), n) in sizes {
        for cell in [0, 1, 2, 3] {
            checker.refuses(&Case::new((w, h), &vec![cell; n], u32::MAX), 11);
            checker.refuses(&Case::new((h, w), &vec![cell; n], u32::MAX), 11);
        }
    }
}

#[test]
fn sides_of_240_pass_and_of_241_give_11() {
    let mut checker = Checker::new(1106);
    for other in 1..=240 {
        for (w, h) in [(240, other), (other, 240)] {
            checker.gives(&Case::new((w, h), &vec![1; w * h], u32::MAX), (10_000, 0));
        }
        for (w, h) in [(241, other), (other, 241), (0, other), (other, 0)] {
            checker.refuses(&Case::new((w, h), &vec![1; w * h], u32::MAX), 11);
        }
    }
    checker.refuses(&free((241, 241), 241 * 241), 11);
}

/// One less, one more, none, and lengths that would do if they were cut to 8 or 16 bits.
#[test]
fn lengths() {
    let mut checker = Checker::new(1107);
    for w in GOOD_SIDES {
        for h in GOOD_SIDES {
            let cells = w * h;
            checker.gives(&free((w, h), cells), (0, 0));
            let far = [2 * cells, cells + w, cells + 256, cells + 65_536];
            for n in [0, cells - 1, cells + 1].into_iter().chain(far) {
                checker.refuses(&free((w, h), n), 12);
                let full = Case::new((w, h), &vec![1; n], u32::MAX);
                checker.refuses(&full, 12);
                for cell in [2, 3] {
                    let bad = Case::new((w, h), &vec![cell; n], u32::MAX);
                    checker.refuses(&bad, 12);
                }
            }
        }
    }
    checker.tally.assert_answers(&[0, 12], 25);
}

/// A frame of no bytes, its pointer null: the answer is that of any empty frame.
#[test]
fn a_null_frame() {
    let mut sizes = vec![(1, 1), (3, 2), (240, 240)];
    sizes.extend([(0, 0), (0, 1), (1, 0), (241, 1), (usize::MAX, 1 << 32)]);
    for (i, (w, h)) in sizes.into_iter().enumerate() {
        for before in [0, 1, u32::MAX, 12_345] {
            let mut remainder = before;
            let wanted = if i < 3 { -12 } else { -11 };
            assert_eq!(share_of_null((w, h), &mut remainder), wanted, "{w} {h}");
            assert_eq!(remainder, before, "W {w}, H {h}: the remainder");
        }
    }
}

/// At the first place, the last and any, alone among cells of each value, and with a second
/// one; and past the frame, where 12 is the answer.
#[test]
fn cells_above_2() {
    let (mut maker, mut checker) = (Maker::new(1108), Checker::new(1109));
    let sizes = [(1, 1), (2, 3), (9, 1), (1, 30), (17, 16), (240, 240)];
    for (w, h) in sizes {
        let (cells, any) = (w * h, maker.random.below(w * h));
        for value in BAD_CELLS {
            for place in [0, cells - 1, any] {
                for others in [0, 1, 2] {
                    let mut case = Case::new((w, h), &vec![others; cells], u32::MAX);
                    case.frame[place] = value;
                    checker.refuses(&case, 13);
                    let second = maker.place(cells);
                    case.frame[second] = maker.random.pick(&BAD_CELLS);
                    checker.refuses(&case, 13);
                }
            }
            let mut longer = free((w, h), cells);
            longer.frame.push(value);
            checker.refuses(&longer, 12);
        }
    }
    checker.tally.assert_answers(&[12, 13], 100);
}

/// Every value at every place of a small frame.
#[test]
fn every_value_of_a_cell() {
    let mut checker = Checker::new(1110);
    for value in 0..=255 {
        for place in 0..6 {
            let mut case = free((3, 2), 6);
            case.frame[place] = value;
            match value {
                0 => checker.gives(&case, (0, 0)),
                // 10,000 = 1,666 × 6 + 4.
                1 => checker.gives(&case, (1_666, 4)),
                2 => checker.gives(&case, (0, 0)),
                _ => checker.refuses(&case, 13),
            }
        }
    }
}

/// Good cases with one thing damaged, now and then two or three.
#[test]
fn damaged_at_random() {
    println!("seed 1111");
    let (mut maker, mut checker) = (Maker::new(1111), Checker::new(!1111));
    for _ in 0..80_000 {
        let size = match maker.random.below(40) {
            0 => maker.size(),
            _ => (1 + maker.random.below(9), 1 + maker.random.below(9)),
        };
        let mut case = maker.share(size);
        let more = maker.random.pick(&[0, 0, 0, 1, 2]);
        for _ in 0..1 + more {
            maker.damage(&mut case);
        }
        let answer = checker.check(&case);
        let first = holding(&case).first().copied();
        assert_eq!(answer.err(), first, "{case}: not the first that holds");
    }
    checker.tally.assert_answers(&[0, 11, 12, 13, 16], 300);
    checker.tally.assert_pairs(300);
}
