//! (y) The load and the load in ten-thousandths of frames with cells that weren't measured:
//! the load counts cells of 1, the share is of measured cells alone, and a frame without one
//! has no share, ground 16, which comes after 13 and is the share's alone.

use musqerpi_tests::frames::library::load;
use musqerpi_tests::frames::makers::{every_frame, sizes_of};
use musqerpi_tests::shares::check::Checker;
use musqerpi_tests::shares::library::share;
use musqerpi_tests::shares::makers::{Maker, BAD_CELLS};
use musqerpi_tests::shares::Case;

fn case(size: (usize, usize), frame: &[u8]) -> Case {
    Case::new(size, frame, u32::MAX)
}

/// So many cells of 0, of 1 and of 2, in this order and in the other, give this load and
/// this share; by one row and by one column.
fn gives(checker: &mut Checker, counts: [usize; 3], wanted: (i64, u32)) {
    let cells = |value: u8| vec![value; counts[usize::from(value)]];
    let mut frame = [cells(0), cells(1), cells(2)].concat();
    for _ in 0..2 {
        for size in [(frame.len(), 1), (1, frame.len())] {
            let count = load(size.0, size.1, &frame);
            assert_eq!(count, counts[1] as i64, "the load of {counts:?}");
            checker.gives(&case(size, &frame), wanted);
        }
        frame.reverse();
    }
}

#[test]
fn written_out() {
    let mut checker = Checker::new(1501);
    gives(&mut checker, [0, 1, 1], (10_000, 0));
    gives(&mut checker, [1, 0, 1], (0, 0));
    gives(&mut checker, [1, 1, 2], (5_000, 0));
    // Thirds, of 3 measured cells: 10,000 = 3,333 × 3 + 1.
    gives(&mut checker, [2, 1, 1], (3_333, 1));
    gives(&mut checker, [1, 2, 237], (6_666, 2));
    // Sevenths: 60,000 = 8,571 × 7 + 3.
    gives(&mut checker, [1, 6, 9], (8_571, 3));
    // 239 measured cells: 10,000 = 41 × 239 + 201.
    gives(&mut checker, [238, 1, 1], (41, 201));
    gives(&mut checker, [0, 1, 239], (10_000, 0));
}

/// Every frame of nine cells or fewer: the load, and the two conditions of the share, which
/// no other pair of numbers meets.
#[test]
fn every_small_frame() {
    let mut refused = 0;
    for size in (1..=9).flat_map(sizes_of) {
        for frame in every_frame(size.0 * size.1) {
            let count = |value: u8| frame.iter().filter(|&&cell| cell == value).count() as i64;
            let (measured, occupied) = (count(0) + count(1), count(1));
            assert_eq!(load(size.0, size.1, &frame), occupied, "{size:?} {frame:?}");
            let mut remainder = u32::MAX;
            let answer = share(size, &frame, &mut remainder);
            if measured == 0 {
                assert_eq!((answer, remainder), (-16, u32::MAX), "{size:?} {frame:?}");
                refused += 1;
                continue;
            }
            let remainder = i64::from(remainder);
            let sum = answer * measured + remainder;
            assert_eq!(sum, 10_000 * occupied, "{size:?} {frame:?}");
            let bounded = (0..=10_000).contains(&answer) && remainder < measured;
            assert!(bounded, "{answer}, {remainder} of {size:?} {frame:?}");
        }
    }
    assert_eq!(refused, 23, "one frame of each size");
}

/// Large frames with so many cells not measured, from none to all but one.
#[test]
fn large_frames() {
    let (mut maker, mut checker) = (Maker::new(1502), Checker::new(1503));
    for size in [(240, 240), (239, 239), (64, 65), (240, 1), (1, 240)] {
        let cells = size.0 * size.1;
        for holes in [0, 1, 2, cells / 2, cells - 2, cells - 1] {
            for occupied in [0, 1, (cells - holes) / 2, cells - holes] {
                let mut frame = maker.with_occupied(cells - holes, occupied);
                frame.extend(vec![2; holes]);
                frame.rotate_left(maker.random.below(cells));
                let (answer, case) = (load(size.0, size.1, &frame), case(size, &frame));
                assert_eq!(answer, occupied as i64, "the load of {case}");
                let share = checker.share(&case);
                let sum = share.quotient * case.measured() + i64::from(share.remainder);
                assert_eq!(sum, 10_000 * answer, "{case}: {share:?}");
            }
        }
    }
}

/// No measured cell is 16 for the share and 0 for the load. One measured cell, anywhere, is
/// the whole of what is measured.
#[test]
fn no_measured_cell_and_one() {
    let (mut maker, mut checker) = (Maker::new(1504), Checker::new(1505));
    for (w, h) in [
        (1, 1),
        (2, 1),
        (3, 3),
        (64, 1),
        (1, 65),
        (17, 240),
        (240, 240),
    ] {
        let mut frame = vec![2; w * h];
        checker.refuses(&case((w, h), &frame), 16);
        assert_eq!(load(w, h, &frame), 0, "the load of {w} by {h}");
        for place in [0, w * h / 2, w * h - 1, maker.random.below(w * h)] {
            for (cell, quotient) in [(0, 0), (1, 10_000)] {
                frame[place] = cell;
                checker.gives(&case((w, h), &frame), (quotient, 0));
                assert_eq!(load(w, h, &frame), i64::from(cell), "{w} by {h}, {place}");
            }
            frame[place] = 2;
        }
    }
}

/// 11, 12 and 13 come before 16: no cell is measured in any of these frames.
#[test]
fn grounds_before_16() {
    let mut checker = Checker::new(1506);
    for (w, h) in [(1, 1), (2, 3), (16, 16), (240, 240)] {
        let cells = w * h;
        for bad in BAD_CELLS {
            for place in [0, cells / 2, cells - 1] {
                let mut frame = vec![2; cells];
                frame[place] = bad;
                checker.refuses(&case((w, h), &frame), 13);
                assert_eq!(load(w, h, &frame), -13, "the load, {bad} at {place}");
            }
        }
        for n in [0, cells - 1, cells + 1] {
            checker.refuses(&case((w, h), &vec![2; n]), 12);
        }
        checker.refuses(&case((w, 0), &[]), 11);
        checker.refuses(&case((241, h), &vec![2; 241 * h]), 11);
    }
}
