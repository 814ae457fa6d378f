//! (z) The rolling waterfall with cells that weren't measured: after every arrival the kept
//! frame is the dilation of the live one, by the plan's points and by the library's operation
//! (waterfall.rs looks at both), or written out.

use musqerpi_tests::operations::makers::Maker;
use musqerpi_tests::operations::plan_list;
use musqerpi_tests::rolling::check::Checker;
use musqerpi_tests::rolling::waterfall::Waterfall;
use musqerpi_tests::rolling::Case;

/// Small plans; one whose points leave a frame of three rows, and the full window.
fn plans() -> [Vec<u32>; 6] {
    [
        plan_list((0, 0), &[]),
        plan_list((0, 0), &[3]),
        plan_list((0, -1), &[9]),
        plan_list((-1, -1), &[511]),
        plan_list((1, 2), &[10]),
        plan_list((-7, -8), &[27, 511, 511, 511, 511, 511, 511, 511]),
    ]
}

#[test]
fn written_out() {
    // Columns 0 and 1 on a single row: 2 grows over 0, and 1 over 2.
    let (pair, free) = (plan_list((0, 0), &[3]), [0; 6]);
    let row = [2, 0, 1, 2, 2, 0];
    let case = Case::new(&pair, (6, 1), &row, &free, &free);
    Checker::new(1601).gives(&case, &row, &[2, 2, 1, 1, 2, 2]);
    // The point (0, 0): of three rows the middle one is only moved, a wrong 2 with it.
    let point = plan_list((0, 0), &[]);
    let case = Case::new(&point, (1, 3), &[2], &[0, 1, 0], &[0, 0, 2]);
    Checker::new(1602).gives(&case, &[1, 0, 2], &[1, 2, 2]);
    // The points (0, 0) and (0, 1): a 2 that has left the frame leaves the kept one too.
    let below = plan_list((0, 0), &[9]);
    let case = Case::new(&below, (1, 2), &[0], &[2, 0], &[2, 2]);
    Checker::new(1603).gives(&case, &[0, 0], &[0, 0]);
}

/// Every list of three rows of two cells, 729 of them, at frames of one to four rows.
#[test]
fn every_list_of_three_rows() {
    let row = |n: usize| [(n % 3) as u8, (n / 3 % 3) as u8];
    for h in 1..=4 {
        for plan in plans() {
            for list in 0..729 {
                let mut waterfall = Waterfall::new(&plan, (2, h));
                for n in [list % 9, list / 9 % 9, list / 81] {
                    waterfall.take(&row(n));
                }
            }
        }
    }
}

/// The receiver retunes for some rows: they pass through the frame, and by the square about
/// each cell the kept frame has 2 in them and in the row before and after them. Nothing of
/// it is left when they are gone.
#[test]
fn rows_of_2_pass_through() {
    let (h, square) = (12i64, plan_list((-1, -1), &[511]));
    for w in [1, 5, 64, 240] {
        for holes in [1, 2, 5] {
            let (mut live, mut kept) = (vec![0; w * 12], vec![0; w * 12]);
            for arrival in 0..30i64 {
                let cell = if arrival < holes { 2 } else { 0 };
                let case = Case::new(&square, (w, 12), &vec![cell; w], &live, &kept);
                // The first of them stands in row H - 1, and moves by one each time.
                let first = h - 1 - arrival;
                let last = (first + holes - 1).min(h - 1);
                let rows = |from: i64, to: i64| -> Vec<u8> {
                    let cell = |y: i64| if (from..=to).contains(&y) { 2 } else { 0 };
                    (0..h).flat_map(|y| vec![cell(y); w]).collect()
                };
                live = rows(first, last);
                // The rows beside them are 2 too, as long as one of them is in the frame.
                kept = match last >= 0 {
                    true => rows(first.max(0) - 1, last + 1),
                    false => rows(1, 0),
                };
                Checker::new(1604).gives(&case, &live, &kept);
            }
        }
    }
}

/// One cell unlike the others, a 2 among them or in place of them, passes through in the
/// first column, the last and two between, at widths about words.
#[test]
fn one_cell_passes_through() {
    let plans = [
        plan_list((-7, -7), &[511; 7]),
        plan_list((0, 0), &[[3; 15], [9; 15]].concat()),
        plan_list((-15, -15), &[27, 511, 511, 511, 511, 511, 511, 511]),
    ];
    for (i, w) in [1, 63, 64, 65, 239, 240].into_iter().enumerate() {
        for (others, one) in [(0, 2), (1, 2), (2, 1), (2, 0)] {
            let mut waterfall = Waterfall::new(&plans[i % 3], (w, 34));
            for column in [0, w - 1, w / 2, 63.min(w - 1)] {
                let mut row = vec![others; w];
                row[column] = one;
                waterfall.take(&row);
                (0..11).for_each(|_| waterfall.take(&vec![others; w]));
            }
            // A 2 among free cells is there from its arrival on, and the next comes in time.
            let seen = waterfall.unmeasured;
            assert!(others != 0 || seen == 48, "W {w}: {seen} times");
        }
    }
}

/// Long lists of rows, most with cells that aren't measured, a third with none measured,
/// by any plans.
#[test]
fn long_lists() {
    let (mut maker, mut unmeasured) = (Maker::new(1605), 0);
    for (size, arrivals) in [((30, 40), 200), ((65, 64), 150), ((240, 33), 100)] {
        for _ in 0..4 {
            let mut waterfall = Waterfall::new(&maker.plan(), size);
            for _ in 0..arrivals {
                let mut row = maker.measured((size.0, 1));
                match maker.random.below(3) {
                    0 => row.fill(2),
                    _ => maker.frames.unmeasure(&mut row),
                }
                waterfall.take(&row);
            }
            unmeasured += waterfall.unmeasured;
        }
    }
    println!("{unmeasured} times kept cells of 2");
    assert!(unmeasured >= 1_000, "{unmeasured} times kept cells of 2");
}
