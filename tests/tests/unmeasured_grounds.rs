//! (aa) Ground 13 starts above 2 in every call that has it: a cell of 2 is taken, one of 3,
//! of 128 or of 255 refused, at the first place, in the middle and at the last. Ground 16
//! is no other call's than the share's.

use musqerpi_tests::frames::check::Checker as Frames;
use musqerpi_tests::frames::{grid_of, stage_word, Case as FrameCase, AROUND, MODES};
use musqerpi_tests::operations::check::Checker as Operations;
use musqerpi_tests::operations::{plan_list, Case as Operation, OPS};
use musqerpi_tests::rolling::check::Checker as Arrivals;
use musqerpi_tests::rolling::Case as Arrival;
use musqerpi_tests::shares::check::Checker as Shares;
use musqerpi_tests::shares::Case as Share;

const SIZES: [(usize, usize); 5] = [(1, 1), (3, 2), (64, 1), (1, 65), (240, 240)];

/// Cells of 0, or of 1 or 2, with each value at the first place, in the middle and at the
/// last, and whether a cell is above 2 then.
fn frames(cells: usize) -> Vec<(Vec<u8>, bool)> {
    let mut frames = Vec::new();
    for others in [0, 1, 2] {
        for (value, bad) in [(2, false), (3, true), (128, true), (255, true)] {
            for place in [0, cells / 2, cells - 1] {
                let mut frame = vec![others; cells];
                frame[place] = value;
                frames.push((frame, bad));
            }
        }
    }
    frames
}

#[test]
fn load_and_share() {
    let (mut frames_checker, mut shares) = (Frames::new(1701), Shares::new(1702));
    for size in SIZES {
        for (frame, bad) in frames(size.0 * size.1) {
            let occupied = frame.iter().filter(|&&cell| cell == 1).count() as i64;
            let load = FrameCase::load(size.0, size.1, &frame);
            frames_checker.answers(&load, if bad { -13 } else { occupied });
            let share = Share::new(size, &frame, u32::MAX);
            let ground = match (bad, share.measured()) {
                (true, _) => Some(13),
                (false, 0) => Some(16),
                _ => None,
            };
            assert_eq!(shares.check(&share).err(), ground, "{share}");
        }
    }
}

#[test]
fn putting_and_the_single_stage() {
    let mut checker = Frames::new(1703);
    for size in SIZES {
        let grid = grid_of(size.0, size.1);
        for (frame, bad) in frames(size.0 * size.1) {
            for around in AROUND {
                let put = FrameCase::put(size.0, size.1, &frame, around, grid);
                checker.answers(&put, if bad { -13 } else { 0 });
            }
        }
        for (from, bad) in frames(grid) {
            for mode in MODES {
                let stage = FrameCase::stage(stage_word(17), mode, size, &from, grid);
                checker.answers(&stage, if bad { -13 } else { 0 });
            }
        }
    }
}

#[test]
fn the_four_operations() {
    let mut checker = Operations::new(1704);
    let plan = plan_list((-1, 0), &[3, 9]);
    for size in SIZES {
        let grid = grid_of(size.0, size.1);
        for (frame, bad) in frames(size.0 * size.1) {
            for op in OPS {
                let case = Operation::new(op, &plan, size, &frame, (grid, grid));
                checker.answers(&case, if bad { 13 } else { 0 });
            }
        }
    }
}

/// In the row, in the live frame and in the kept one.
#[test]
fn arrivals() {
    let mut checker = Arrivals::new(1705);
    let plan = plan_list((-1, 0), &[3, 9]);
    for (w, h) in SIZES {
        for (row, bad) in frames(w) {
            for cell in [0, 1, 2] {
                let frame = vec![cell; w * h];
                let case = Arrival::new(&plan, (w, h), &row, &frame, &frame);
                checker.answers(&case, if bad { 13 } else { 0 });
            }
        }
        for (frame, bad) in frames(w * h) {
            for cell in [0, 2] {
                let (row, other) = (vec![cell; w], vec![cell; w * h]);
                let live = Arrival::new(&plan, (w, h), &row, &frame, &other);
                checker.answers(&live, if bad { 13 } else { 0 });
                let kept = Arrival::new(&plan, (w, h), &row, &other, &frame);
                checker.answers(&kept, if bad { 13 } else { 0 });
            }
        }
    }
}
