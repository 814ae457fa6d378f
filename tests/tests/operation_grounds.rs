//! (l) The grounds of frame and images in the four operations, and all grounds together.
//! Answers are written out or the first that holds; a refusal changes nothing.

use musqerpi_tests::cases::Call;
use musqerpi_tests::frames::grid_of;
use musqerpi_tests::operations::check::Checker;
use musqerpi_tests::operations::grounds::{holding, GROUNDS};
use musqerpi_tests::operations::makers::Maker;
use musqerpi_tests::operations::{plan_list, Case, Op, OPS};

/// A frame of free cells, by a plan of one stage.
fn free(op: Op, size: (usize, usize), frame_n: usize, images: (usize, usize)) -> Case {
    let plan = plan_list((0, 0), &[3]);
    Case::new(op, &plan, size, &vec![0; frame_n], images)
}

/// Sides that no frame has.
const BAD_SIDES: [usize; 12] = [
    0,
    241,
    242,
    255,
    256,
    1 << 16,
    (1 << 32) + 1,
    usize::MAX - 15,
    usize::MAX - 14,
    usize::MAX / 2 + 1,
    usize::MAX - 1,
    usize::MAX,
];

#[test]
fn sizes() {
    let mut checker = Checker::new(708);
    for bad in BAD_SIDES {
        for other in BAD_SIDES.into_iter().chain([1, 2, 16, 239, 240]) {
            // As many bytes as the cut product has, if they are few; else some.
            let few = |n: usize| if n < 70_000 { n } else { 300 };
            let frame_n = few(bad.wrapping_mul(other));
            let grid = few(bad.wrapping_add(15).wrapping_mul(other.wrapping_add(15)));
            for (i, size) in [(bad, other), (other, bad)].into_iter().enumerate() {
                for op in [OPS[i], OPS[3 - i]] {
                    checker.answers(&free(op, size, frame_n, (grid, grid)), 11);
                }
            }
        }
    }
    for op in OPS {
        for (w, h) in [(1, 1), (240, 1), (1, 240), (240, 240)] {
            let grid = grid_of(w, h);
            checker.answers(&free(op, (w, h), w * h, (grid, grid)), 0);
        }
    }
    checker.tally.assert_answers(&[0, 11], 4);
}

#[test]
fn lengths_of_frame_and_images() {
    let mut checker = Checker::new(709);
    for (w, h) in [(1, 1), (3, 2), (1, 17), (240, 2), (240, 240)] {
        let (cells, grid) = (w * h, grid_of(w, h));
        for op in OPS {
            for frame_n in [0, cells - 1, cells + 1, cells + w, grid] {
                for images in [(grid, grid), (grid - 1, grid), (0, 0)] {
                    checker.answers(&free(op, (w, h), frame_n, images), 12);
                }
            }
            for first in [0, cells, grid - 1, grid, grid + 1] {
                for second in [0, cells, grid - 1, grid, grid + 1] {
                    let enough = first >= grid && second >= grid;
                    let case = free(op, (w, h), cells, (first, second));
                    checker.answers(&case, if enough { 0 } else { 14 });
                }
            }
        }
    }
    checker.tally.assert_answers(&[0, 12, 14], 20);
}

/// Cells 3 and 255, and others above 2, at each place of small frames and at many of
/// large ones, by short images too.
#[test]
fn cells_above_2() {
    let mut checker = Checker::new(710);
    for (w, h) in [(1, 1), (2, 3), (4, 4), (9, 1), (1, 30), (240, 240)] {
        let (last, grid) = (w * h - 1, grid_of(w, h));
        for op in OPS {
            for place in (0..last.min(20)).chain([last / 2, last]) {
                for value in [3, 255] {
                    for images in [(grid, grid), (grid - 1, grid), (grid, grid - 1)] {
                        let mut case = free(op, (w, h), w * h, images);
                        case.frame[place] = value;
                        checker.answers(&case, 13);
                    }
                }
            }
            for value in [4, 5, 16, 127, 128, 254] {
                let mut case = free(op, (w, h), w * h, (grid, grid));
                case.frame[last] = value;
                checker.answers(&case, 13);
            }
        }
    }
    checker.tally.assert_answers(&[13], 400);
}

/// Damaged plans of every kind, on frames and images with and without damage. Each
/// ground is answered, and each comes up with each other.
#[test]
fn damaged_at_random() {
    println!("seed 711");
    let (mut maker, mut checker) = (Maker::new(711), Checker::new(!711));
    for round in 0..60_000 {
        let plan = match maker.random.below(3) {
            0 => maker.plan(),
            1 => maker.lists.plan(),
            _ => maker.lists.damaged(Call::ShapeOfPlan).a,
        };
        let side = |maker: &mut Maker| match maker.random.once_in(12) {
            true => maker.random.pick(&[0, 241, 250]),
            false => 1 + maker.random.below(12),
        };
        let (w, h) = (side(&mut maker), side(&mut maker));
        let off = |maker: &mut Maker, n: usize| match maker.random.once_in(5) {
            true => (n + maker.random.below(4)).saturating_sub(2),
            false => n,
        };
        let mut frame = vec![maker.random.pick(&[1, 2]); off(&mut maker, w * h)];
        if !frame.is_empty() && maker.random.once_in(4) {
            let place = maker.random.below(frame.len());
            frame[place] = maker.random.pick(&[3, 255]);
        }
        let grid = grid_of(w, h);
        let images = (off(&mut maker, grid), off(&mut maker, grid));
        let case = Case::new(OPS[round % 4], &plan, (w, h), &frame, images);
        let result = checker.check(&case);
        checker.tally.note_grounds(&case, &result);
    }
    checker
        .tally
        .assert_answers(&[&[0], &GROUNDS[..]].concat(), 50);
    checker.tally.assert_pairs(20);
}

/// Every set of grounds that can hold together, so often: the least is the answer.
#[test]
fn every_set_of_grounds() {
    let (mut maker, mut checker) = (Maker::new(712), Checker::new(713));
    for set in 0..1 << GROUNDS.len() {
        let chosen = GROUNDS.iter().enumerate();
        let chosen = chosen.filter(|(i, _)| set >> i & 1 == 1);
        let held: Vec<usize> = chosen.map(|(_, &ground)| ground).collect();
        let unread = held.iter().any(|&ground| ground <= 3);
        if unread && held.contains(&8) {
            continue;
        }
        for op in [OPS; 5].concat() {
            let case = maker.refused(op, &held);
            let mut found = holding(&case);
            if held.contains(&6) && !held.contains(&8) {
                found.retain(|&ground| ground != 8); // a far place is out of range too
            }
            assert_eq!(found, held, "{case}");
            let result = checker.check(&case);
            checker.tally.note_grounds(&case, &result);
        }
    }
    checker
        .tally
        .assert_answers(&[&[0], &GROUNDS[..]].concat(), 5);
    checker.tally.assert_pairs(20);
}
