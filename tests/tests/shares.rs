//! (q) The load in ten-thousandths where nothing is refused: every quotient and remainder
//! against the reference, against the equation itself, or written out by hand.

use musqerpi_tests::frames::library::load;
use musqerpi_tests::shares::check::Checker;
use musqerpi_tests::shares::library;
use musqerpi_tests::shares::makers::Maker;
use musqerpi_tests::shares::reference::Share;
use musqerpi_tests::shares::Case;

/// The words of the requests, with the plain count that the load gives: quotient × measured
/// cells + remainder = 10,000 × occupied cells, and the remainder is below the measured.
fn assert_closes(case: &Case, share: Share, occupied: i64) {
    let (cells, remainder) = (case.measured(), i64::from(share.remainder));
    let count = load(case.w, case.h, &case.frame);
    assert_eq!(count, occupied, "{case}: the plain count");
    let sum = share.quotient * cells + remainder;
    assert_eq!(sum, 10_000 * count, "{case}: {share:?} doesn't close");
    assert!(remainder < cells, "{case}: {share:?} is not bounded");
    let range = 0..=10_000;
    assert!(range.contains(&share.quotient), "{case}: {share:?}");
}

/// Every size of so many cells at most.
fn sizes_up_to(cells: usize) -> Vec<(usize, usize)> {
    let sizes = (1..=cells).flat_map(|w| (1..=cells / w).map(move |h| (w, h)));
    sizes.collect()
}

#[test]
fn every_frame_of_twelve_cells_or_fewer() {
    let (mut maker, mut checker) = (Maker::new(1001), Checker::new(1002));
    for (w, h) in sizes_up_to(12) {
        for bits in 0u32..1 << (w * h) {
            let frame: Vec<u8> = (0..w * h).map(|i| (bits >> i & 1) as u8).collect();
            let case = Case::new((w, h), &frame, maker.before());
            let share = checker.share(&case);
            assert_closes(&case, share, bits.count_ones().into());
        }
    }
    // The sum over n of 2^n contents and as many sizes as n has divisors.
    checker.tally.assert_answers(&[0], 35_978);
    checker.tally.assert_shares(30);
}

/// What so many occupied cells give, laid from the first cell on, and the same laid back
/// from the last.
fn gives(checker: &mut Checker, size: (usize, usize), occupied: usize, wanted: (i64, u32)) {
    let cells = size.0 * size.1;
    let mut frame = vec![0; cells];
    frame[..occupied].fill(1);
    checker.gives(&Case::new(size, &frame, u32::MAX), wanted);
    frame.reverse();
    checker.gives(&Case::new(size, &frame, u32::MAX), wanted);
}

#[test]
fn written_out() {
    let mut checker = Checker::new(1003);
    gives(&mut checker, (1, 1), 0, (0, 0));
    gives(&mut checker, (1, 1), 1, (10_000, 0));
    // Thirds: 10,000 = 3,333 × 3 + 1 and 20,000 = 6,666 × 3 + 2.
    gives(&mut checker, (3, 1), 1, (3_333, 1));
    gives(&mut checker, (1, 3), 2, (6_666, 2));
    // Sevenths: 10,000 = 1,428 × 7 + 4 and 60,000 = 8,571 × 7 + 3.
    gives(&mut checker, (7, 1), 1, (1_428, 4));
    gives(&mut checker, (1, 7), 6, (8_571, 3));
    // 10,000 cells: one is one ten-thousandth.
    gives(&mut checker, (100, 100), 1, (1, 0));
    gives(&mut checker, (50, 200), 9_999, (9_999, 0));
    // 9,999 cells: 99,980,000 = 9,998 × 9,999 + 9,998, the greatest remainder.
    gives(&mut checker, (101, 99), 1, (1, 1));
    gives(&mut checker, (99, 101), 9_998, (9_998, 9_998));
    // 10,001 cells: 10,000 is below them, and 100,000,000 = 9,999 × 10,001 + 1.
    gives(&mut checker, (73, 137), 1, (0, 10_000));
    gives(&mut checker, (137, 73), 10_000, (9_999, 1));
    // One row and one column: 10,000 = 41 × 240 + 160, 2,390,000 = 9,958 × 240 + 80.
    gives(&mut checker, (240, 1), 1, (41, 160));
    gives(&mut checker, (1, 240), 239, (9_958, 80));
    // 239 × 239 = 57,121 cells: 571,200,000 = 9,999 × 57,121 + 47,121.
    gives(&mut checker, (239, 239), 57_120, (9_999, 47_121));
}

#[test]
fn the_greatest_frame() {
    let (mut checker, size) = (Checker::new(1004), (240, 240));
    gives(&mut checker, size, 0, (0, 0));
    gives(&mut checker, size, 57_600, (10_000, 0));
    gives(&mut checker, size, 28_800, (5_000, 0));
    // 50,000 is below 57,600, and 60,000 = 57,600 + 2,400.
    gives(&mut checker, size, 5, (0, 50_000));
    gives(&mut checker, size, 6, (1, 2_400));
    // First and last cell, the other corners, their neighbours, and the middle.
    let corners = [0, 239, 240 * 239, 57_599];
    for place in corners.into_iter().chain([1, 240, 57_598, 28_799, 28_920]) {
        // 10,000 × 57,599 = 575,990,000 = 9,999 × 57,600 + 47,600.
        let mut frame = vec![1; 57_600];
        frame[place] = 0;
        checker.gives(&Case::new(size, &frame, u32::MAX), (9_999, 47_600));
        let mut frame = vec![0; 57_600];
        frame[place] = 1;
        checker.gives(&Case::new(size, &frame, u32::MAX), (0, 10_000));
    }
}

/// All free, one occupied, all but one and all, at every width and at every height.
#[test]
fn every_side() {
    let (mut maker, mut checker) = (Maker::new(1005), Checker::new(1006));
    for side in 1..=240 {
        for other in [1, 2, 7, 240] {
            for (w, h) in [(side, other), (other, side)] {
                let cells = w * h;
                for occupied in [0, 1, cells - 1, cells] {
                    let frame = maker.with_occupied(cells, occupied);
                    let case = Case::new((w, h), &frame, maker.before());
                    let share = checker.share(&case);
                    assert_closes(&case, share, occupied as i64);
                }
            }
        }
    }
    checker.tally.assert_shares(10);
}

/// Every number of occupied cells, at random places, in frames of some sizes.
#[test]
fn every_count() {
    let (mut maker, mut checker) = (Maker::new(1007), Checker::new(1008));
    for (w, h) in [(17, 1), (1, 239), (240, 1), (16, 16), (15, 17), (13, 77)] {
        for occupied in 0..=w * h {
            let frame = maker.with_occupied(w * h, occupied);
            let case = Case::new((w, h), &frame, maker.before());
            let share = checker.share(&case);
            assert_closes(&case, share, occupied as i64);
        }
    }
    checker.tally.assert_shares(3);
}

/// Any size and any density: one row, one column, as wide as can be, the greatest frame.
#[test]
fn random_frames() {
    let (mut maker, mut checker) = (Maker::new(1009), Checker::new(1010));
    for round in 0..3_000 {
        let size = match round % 50 {
            0 => (240, 240),
            _ => maker.size(),
        };
        let case = maker.share(size);
        let occupied = case.frame.iter().filter(|&&cell| cell == 1).count();
        let share = checker.share(&case);
        assert_closes(&case, share, occupied as i64);
    }
    checker.tally.assert_answers(&[0], 3_000);
    checker.tally.assert_shares(10);
}

/// Quotient × measured cells + remainder of a frame, which is what adds up; nothing if no
/// cell is measured.
fn worth(checker: &mut Checker, size: (usize, usize), frame: &[u8]) -> i64 {
    let case = Case::new(size, frame, u32::MAX);
    match checker.check(&case) {
        Ok(share) => share.quotient * case.measured() + i64::from(share.remainder),
        Err(ground) => {
            assert_eq!((ground, case.measured()), (16, 0), "{case}");
            0
        }
    }
}

/// A frame's rows, its columns, or bands of its rows, each a frame of its own: what they
/// are worth adds up to what the whole is, and to 10,000 × its occupied cells.
#[test]
fn parts_add_up_to_the_whole() {
    let (mut maker, mut checker) = (Maker::new(1011), Checker::new(1012));
    for _ in 0..250 {
        let (w, h) = maker.size();
        let frame = maker.share((w, h)).frame;
        let whole = worth(&mut checker, (w, h), &frame);
        assert_eq!(whole, 10_000 * load(w, h, &frame), "W {w}, H {h}");
        let rows = frame.chunks(w).map(|row| worth(&mut checker, (w, 1), row));
        assert_eq!(rows.sum::<i64>(), whole, "rows of W {w}, H {h}");
        let column = |x: usize| -> Vec<u8> { frame.chunks(w).map(|row| row[x]).collect() };
        let columns = (0..w).map(|x| worth(&mut checker, (1, h), &column(x)));
        assert_eq!(columns.sum::<i64>(), whole, "columns of W {w}, H {h}");
        let high = 1 + maker.random.below(h);
        let bands = frame.chunks(w * high);
        let bands = bands.map(|band| worth(&mut checker, (w, band.len() / w), band));
        assert_eq!(bands.sum::<i64>(), whole, "bands of W {w}, H {h}");
    }
}

/// Whatever stands in the place of the remainder, and however often it is asked, the
/// answer is the same; the remainder of one frame doesn't reach the next.
#[test]
fn nothing_is_taken_from_before() {
    let (mut maker, mut checker) = (Maker::new(1013), Checker::new(1014));
    let mut kept = 0;
    for _ in 0..400 {
        let size = maker.size();
        let mut case = maker.share(size);
        let first = checker.share(&case);
        let next = first.remainder.wrapping_add(1);
        let any = maker.random.word();
        for before in [0, 1, u32::MAX, any, first.remainder, next] {
            case.before = before;
            assert_eq!(checker.share(&case), first, "{case}");
            assert_eq!(checker.share(&case), first, "{case}");
        }
        for _ in 0..2 {
            let answer = library::share(size, &case.frame, &mut kept);
            assert_eq!((answer, kept), (first.quotient, first.remainder), "{case}");
        }
    }
}
