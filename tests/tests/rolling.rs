//! (o) The rolling waterfall: lists of arrivals against the dilation of the rows now
//! present, and kept frames that were wrong, cell by cell.

use musqerpi_tests::operations::makers::Maker;
use musqerpi_tests::operations::plan_list;
use musqerpi_tests::reference::points::of_plan;
use musqerpi_tests::rolling::check::Checker;
use musqerpi_tests::rolling::grounds::GROUNDS;
use musqerpi_tests::rolling::reference::{reach, run};
use musqerpi_tests::rolling::waterfall::Waterfall;
use musqerpi_tests::rolling::Case;

/// The full window, by eight stages and by thirty of one step each.
fn full_windows() -> [Vec<u32>; 2] {
    [[&[27][..], &[511; 7]].concat(), [[3; 15], [9; 15]].concat()]
}

/// The row arrives at a live and a kept frame, and this is what they are afterwards.
fn gives(plan: &[u32], size: (usize, usize), row: &[u8], before: [&[u8]; 2], after: [&[u8]; 2]) {
    let case = Case::new(plan, size, row, before[0], before[1]);
    Checker::new(801).gives(&case, after[0], after[1]);
}

#[test]
fn written_out() {
    // Columns 0 and 1 on a single row: it is worked out anew.
    let (pair, before, row) = (plan_list((0, 0), &[3]), &[0, 0, 1], &[1, 0, 0]);
    gives(&pair, (3, 1), row, [before, before], [row, &[1, 1, 0]]);
    // The point (0, 0): of three rows the middle one is only moved, here a wrong one.
    let (point, live, kept) = (plan_list((0, 0), &[]), &[0, 1, 0], &[0, 0, 1]);
    gives(&point, (1, 3), &[1], [live, kept], [&[1, 0, 1], &[1, 1, 1]]);
    // The point (0, 1): of five rows the middle one is only moved, of four none.
    let (below, live, kept) = (plan_list((0, 1), &[]), &[1, 0, 1, 0, 0], &[1, 1, 1, 0, 1]);
    let after = &[0, 1, 0, 0, 1];
    gives(
        &below,
        (1, 5),
        &[1],
        [live, kept],
        [after, &[0, 0, 0, 0, 0]],
    );
    let (live, kept) = (&[1, 0, 1, 0], &[1, 1, 1, 0]);
    gives(
        &below,
        (1, 4),
        &[1],
        [live, kept],
        [&[0, 1, 0, 1], &[0, 0, 1, 0]],
    );
}

/// A row arrives with a wrong length or a cell above 2, with a damaged plan, or with a
/// size that isn't the frames'.
fn refuse(maker: &mut Maker, waterfall: &mut Waterfall) {
    let (mut plan, (w, h)) = (waterfall.plan.clone(), waterfall.size);
    let (mut size, mut row) = ((w, h), maker.row(w));
    let ground = match maker.random.below(6) {
        0 => {
            row.pop();
            15
        }
        1 => {
            row.push(1);
            15
        }
        2 => {
            row[maker.random.below(w)] = maker.random.pick(&[3, 255]);
            13
        }
        3 => {
            let ground = maker.random.pick(&GROUNDS[..7]);
            plan = maker.refused_plan(&[ground]);
            ground
        }
        4 => {
            size = maker.random.pick(&[(w, 0), (0, h), (w, 241), (241, h)]);
            11
        }
        _ => {
            size = maker.random.pick(&[(w, h + 1), (w + 1, h)]);
            12
        }
    };
    waterfall.refuse(&plan, size, &row, ground);
}

/// A plan and a size: in half of them a row or more is only moved.
fn plan_and_size(maker: &mut Maker) -> (Vec<u32>, (usize, usize)) {
    let plan = maker.plan();
    let none = 2 * reach(&of_plan(&plan)) + 2;
    let h = match maker.random.once_in(2) {
        true => 1 + maker.random.below(none),
        false => none + 1 + maker.random.below(10),
    };
    (plan, (1 + maker.random.below(20), h))
}

/// Hundreds of arrivals at each of three waterfalls in turn, one in four refused, both
/// frames looked at after each.
#[test]
fn lists_of_arrivals() {
    let (mut maker, mut taken, mut refused) = (Maker::new(802), 0, 0);
    let (mut mixed, mut unmeasured, mut moving) = (0, 0, 0);
    for _ in 0..40 {
        let mut waterfalls = [(); 3].map(|_| {
            let (plan, size) = plan_and_size(&mut maker);
            Waterfall::new(&plan, size)
        });
        for i in 0..900 {
            let waterfall = &mut waterfalls[i % 3];
            match maker.random.once_in(4) {
                true => refuse(&mut maker, waterfall),
                false => waterfall.take(&maker.row(waterfall.size.0)),
            }
        }
        for waterfall in waterfalls {
            taken += waterfall.taken;
            refused += waterfall.refused;
            mixed += waterfall.mixed;
            unmeasured += waterfall.unmeasured;
            let y = reach(&of_plan(&waterfall.plan));
            moving += usize::from(waterfall.size.1 > 2 * y + 2);
        }
    }
    println!("{taken} taken, {refused} refused, {mixed} times kept cells of 0 and 1");
    println!("{unmeasured} times kept cells of 2");
    println!("{moving} waterfalls with rows that are only moved");
    assert!(taken >= 25_000 && refused >= 8_000 && moving >= 40);
    assert!(mixed >= 10_000 && unmeasured >= 10_000);
}

/// Any cells in the kept frame: rows that are only moved are as wrong as they were.
#[test]
fn kept_frames_that_were_wrong() {
    let (mut maker, mut checker) = (Maker::new(803), Checker::new(804));
    for _ in 0..6_000 {
        let (plan, size) = plan_and_size(&mut maker);
        checker.answers(&maker.arrival(&plan, size), 0);
    }
    checker.tally.assert_answers(&[0], 6_000);
    checker.tally.assert_kept(300);
}

/// Plans of which y is the greatest |y|, at one end or at both, with offsets at both
/// extremes.
fn plans_reaching(y: i64) -> Vec<Vec<u32>> {
    let mut plans = Vec::new();
    for h in [0, 1, 2, 4, 7, 14, 15].into_iter().filter(|&h| h <= 2 * y) {
        for w in [0, 1, 15] {
            let masks = [vec![3; w as usize], vec![9; h as usize]].concat();
            for dy in [-y, y - h] {
                plans.extend([-15, 15 - w].map(|dx| plan_list((dx, dy), &masks)));
            }
        }
    }
    plans
}

/// A value of a cell that isn't this one.
fn another(cell: u8) -> u8 {
    (cell + 1) % 3
}

/// Gives the case a kept frame of which each cell, if it is only moved, will be wrong.
fn make_all_wrong(case: &mut Case) {
    let dilated = run(case).expect("no ground holds").dilated;
    case.kept.fill(0);
    for (cell, right) in case.kept[case.w..].iter_mut().zip(dilated) {
        *cell = another(right);
    }
}

/// Heights at which no row, one row and a few rows are only moved: just those from
/// Y + 1 to H - 2 - Y are wrong afterwards, in every cell.
#[test]
fn heights_about_the_reach() {
    let (mut maker, mut checker) = (Maker::new(805), Checker::new(806));
    for y in [0, 1, 2, 15] {
        for plan in plans_reaching(y as i64) {
            for h in 1..=2 * y + 5 {
                let size = (maker.random.pick(&[1, 2, 5, 17]), h);
                let mut case = maker.arrival(&plan, size);
                checker.answers(&case, 0);
                make_all_wrong(&mut case);
                let frames = checker.check(&case).expect("no ground holds");
                let mut wanted = frames.dilated.clone();
                for row in y + 1..h.saturating_sub(y + 1) {
                    let cells = &mut wanted[row * size.0..(row + 1) * size.0];
                    cells.iter_mut().for_each(|cell| *cell = another(*cell));
                }
                assert!(frames.kept == wanted, "{case}\nkept {:?}", frames.kept);
            }
        }
    }
    checker.tally.assert_kept(100);
}

/// The greatest frames and the longest of one row and of one column, any kept frame.
#[test]
fn the_greatest_sizes() {
    let (mut maker, mut checker) = (Maker::new(807), Checker::new(808));
    for masks in full_windows() {
        for offset in [(-15, -15), (0, 0), (-15, 0), (-7, -8)] {
            let plan = plan_list(offset, &masks);
            for size in [(240, 240), (240, 1), (1, 240), (240, 33), (239, 31)] {
                checker.answers(&maker.arrival(&plan, size), 0);
            }
        }
    }
    for _ in 0..60 {
        let plan = maker.plan();
        checker.answers(&maker.arrival(&plan, (240, 240)), 0);
    }
    checker.tally.assert_answers(&[0], 100);
}

/// So many arrivals, none refused.
fn arrivals(maker: &mut Maker, masks: &[u32], offset: (i64, i64), size: (usize, usize), n: usize) {
    let mut waterfall = Waterfall::new(&plan_list(offset, masks), size);
    for _ in 0..n {
        waterfall.take(&maker.row(size.0));
    }
}

/// More arrivals than the greatest frame has rows, by eight stages; fewer by thirty.
#[test]
fn lists_at_the_greatest_size() {
    let mut maker = Maker::new(809);
    let [eight, thirty] = full_windows();
    arrivals(&mut maker, &eight, (-7, -8), (240, 240), 260);
    arrivals(&mut maker, &thirty, (0, 0), (240, 240), 60);
    arrivals(&mut maker, &thirty, (-15, -15), (240, 240), 60);
}

#[test]
fn lists_in_one_column() {
    let mut maker = Maker::new(810);
    for h in [1, 2, 18, 19, 20, 32, 33, 34, 240] {
        for masks in full_windows() {
            for offset in [(-7, -8), (0, 0)] {
                arrivals(&mut maker, &masks, offset, (1, h), h + 40);
            }
        }
        arrivals(&mut maker, &[], (0, 15), (1, h), h + 40);
    }
}
