//! (p) The grounds of an arrival at the rolling waterfall, alone and together. Answers are
//! written out or the first that holds; a refusal changes neither frame.

use musqerpi_tests::cases::Call;
use musqerpi_tests::operations::makers::Maker;
use musqerpi_tests::operations::plan_list;
use musqerpi_tests::rolling::check::Checker;
use musqerpi_tests::rolling::grounds::{holding, GROUNDS};
use musqerpi_tests::rolling::Case;

/// Free cells, so many in the row and in either frame, by a plan of one stage.
fn free(size: (usize, usize), row: usize, live: usize, kept: usize) -> Case {
    let (plan, cells) = (plan_list((0, 0), &[3]), |n: usize| vec![0; n]);
    Case::new(&plan, size, &cells(row), &cells(live), &cells(kept))
}

/// Every set of grounds that can hold together, each alone and each pair among them: the
/// first in order is the answer.
#[test]
fn every_set_of_grounds() {
    let (mut maker, mut checker) = (Maker::new(901), Checker::new(902));
    for set in 0..1 << GROUNDS.len() {
        let chosen = GROUNDS.iter().enumerate();
        let chosen = chosen.filter(|(i, _)| set >> i & 1 == 1);
        let held: Vec<usize> = chosen.map(|(_, &ground)| ground).collect();
        let unread = held.iter().any(|&ground| ground <= 3);
        if unread && held.contains(&8) {
            continue;
        }
        let rounds = if held.len() <= 2 { 60 } else { 4 };
        for _ in 0..rounds {
            let case = maker.refused_arrival(&held);
            let mut found = holding(&case);
            if held.contains(&6) && !held.contains(&8) {
                found.retain(|&ground| ground != 8); // a far place is out of range too
            }
            assert_eq!(found, held, "{case}");
            let result = checker.check(&case);
            checker.tally.note_grounds(&case, &result);
        }
    }
    let all = [&[0], &GROUNDS[..]].concat();
    checker.tally.assert_answers(&all, 60);
    checker.tally.assert_pairs(60);
}

/// Damaged plans of every kind, with and without damage to frames and row.
#[test]
fn damaged_at_random() {
    println!("seed 903");
    let (mut maker, mut checker) = (Maker::new(903), Checker::new(!903));
    for _ in 0..20_000 {
        let plan = match maker.random.below(3) {
            0 => maker.lists.damaged(Call::ShapeOfPlan).a,
            _ => maker.plan(),
        };
        let size = (1 + maker.random.below(9), 1 + maker.random.below(9));
        let mut case = maker.arrival(&plan, size);
        for part in [&mut case.row, &mut case.live, &mut case.kept] {
            let (n, place) = (part.len(), maker.random.below(part.len()));
            match maker.random.below(12) {
                0 => part.truncate(n - 1),
                1 => part.push(0),
                2 => part[place] = maker.random.pick(&[3, 255]),
                _ => {}
            }
        }
        match maker.random.below(24) {
            0 => case.w = maker.random.pick(&[0, 241]),
            1 => case.h = maker.random.pick(&[0, 241]),
            _ => {}
        }
        let result = checker.check(&case);
        checker.tally.note_grounds(&case, &result);
    }
    let all = [&[0], &GROUNDS[..]].concat();
    checker.tally.assert_answers(&all, 50);
}

/// Sides that no frame has, with as many cells as their cut product if these are few.
#[test]
fn sizes() {
    let mut checker = Checker::new(905);
    let bad = [
        0,
        241,
        256,
        1 << 16,
        1 << 32,
        usize::MAX / 2 + 1,
        usize::MAX,
    ];
    let few = |n: usize| if n < 70_000 { n } else { 300 };
    for side in bad {
        for other in bad.into_iter().chain([1, 2, 239, 240]) {
            let cells = few(side.wrapping_mul(other));
            for (w, h) in [(side, other), (other, side)] {
                checker.answers(&free((w, h), few(w), cells, cells), 11);
            }
        }
    }
    for (w, h) in [(1, 1), (240, 1), (1, 240), (240, 240)] {
        checker.answers(&free((w, h), w, w * h, w * h), 0);
    }
}

/// Ground 12 over both frames, whatever the row; then 15.
#[test]
fn lengths() {
    let mut checker = Checker::new(906);
    for (w, h) in [(1, 1), (3, 2), (1, 17), (17, 1), (240, 2), (240, 240)] {
        let cells = w * h;
        let frames = [0, 1, cells - 1, cells, cells + 1, cells + w, 2 * cells];
        for live in frames {
            for kept in frames {
                for row in [0, 1, w - 1, w, w + 1, cells, cells + 1] {
                    let wanted = match (live == cells && kept == cells, row == w) {
                        (false, _) => 12,
                        (true, false) => 15,
                        (true, true) => 0,
                    };
                    checker.answers(&free((w, h), row, live, kept), wanted);
                }
            }
        }
    }
    checker.tally.assert_answers(&[0, 12, 15], 6);
}

/// Row, live frame and kept frame of no cells, each alone and together.
#[test]
fn parts_of_no_cells() {
    let mut checker = Checker::new(907);
    for (w, h) in [(1, 1), (3, 2), (240, 240)] {
        let cells = w * h;
        checker.answers(&free((w, h), 0, cells, cells), 15);
        for (live, kept) in [(0, cells), (cells, 0), (0, 0)] {
            checker.answers(&free((w, h), w, live, kept), 12);
            checker.answers(&free((w, h), 0, live, kept), 12);
        }
        let mut case = free((w, h), 0, 0, 0);
        case.plan.clear();
        checker.answers(&case, 1);
    }
    for size in [(0, 0), (0, 1), (1, 0), (0, 240), (240, 0), (241, 241)] {
        checker.answers(&free(size, 0, 0, 0), 11);
    }
}

/// Cells above 2 at each place of small frames and at many of large ones: in the row, in
/// the rows that leave and in those of the kept frame that are worked out anew as well.
#[test]
fn cells_above_2() {
    let mut checker = Checker::new(908);
    for (w, h) in [(1, 1), (2, 3), (4, 5), (9, 1), (1, 30), (240, 240)] {
        let good = free((w, h), w, w * h, w * h);
        let places = |n: usize| (0..n.min(30)).chain([n / 2, n - 1]);
        for value in [3, 4, 16, 128, 254, 255] {
            for place in places(w * h) {
                let mut case = good.clone();
                case.live[place] = value;
                checker.answers(&case, 13);
                case.kept[place] = value;
                checker.answers(&case, 13);
                case.live[place] = 2;
                checker.answers(&case, 13);
            }
            for place in places(w) {
                let mut case = good.clone();
                case.row[place] = value;
                checker.answers(&case, 13);
                case.row.push(0);
                checker.answers(&case, 15);
            }
        }
    }
    checker.tally.assert_answers(&[13, 15], 300);
}
