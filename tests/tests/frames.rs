//! (g) Load, putting and the single stage where nothing is refused, in both kinds of grid.
//! Every result is compared with the reference.

use musqerpi_tests::frames::check::Checker;
use musqerpi_tests::frames::makers::{stages, Maker};
use musqerpi_tests::frames::{grid_of, stage_word, Case, AROUND, MODES};

/// Every size with W and H from 1 to 4.
fn small_sizes() -> Vec<(usize, usize)> {
    (1..=4).flat_map(|w| (1..=4).map(move |h| (w, h))).collect()
}

/// Images just as long as the grid, one byte longer, and much longer.
const EXTRA: [usize; 3] = [0, 1, 100];

#[test]
fn every_stage_on_small_grids() {
    let (mut maker, mut checker) = (Maker::new(301), Checker::new(302));
    for size in small_sizes() {
        let grid = grid_of(size.0, size.1);
        for mask in stages() {
            for mode in MODES {
                for extra in EXTRA {
                    let from = maker.image(size, extra);
                    let to_n = grid + maker.random.pick(&EXTRA);
                    let case = Case::stage(stage_word(mask), mode, size, &from, to_n);
                    checker.answers(&case, 0);
                }
            }
        }
    }
    println!("{} cases", checker.cases);
}

#[test]
fn every_stage_on_one_cell_and_on_all_but_one() {
    let mut checker = Checker::new(303);
    for (w, h) in [(1, 1), (1, 3), (2, 1)] {
        let (width, grid) = (w + 15, grid_of(w, h));
        let inside = 7 * width + 7;
        for place in [0, width - 1, grid - width, grid - 1, inside] {
            for mask in stages() {
                let mut from = vec![0; grid];
                from[place] = 1;
                let word = stage_word(mask);
                let all_but_one: Vec<u8> = from.iter().map(|cell| cell ^ 1).collect();
                for mode in MODES {
                    checker.answers(&Case::stage(word, mode, (w, h), &from, grid), 0);
                    checker.answers(&Case::stage(word, mode, (w, h), &all_but_one, grid), 0);
                }
            }
        }
    }
    println!("{} cases", checker.cases);
}

/// The image goes on for three rows of cells past the grid, all unlike those that the
/// kind of grid has outside: none is looked at.
#[test]
fn every_stage_with_other_cells_past_the_grid() {
    let mut checker = Checker::new(314);
    for (w, h) in [(1, 1), (3, 2)] {
        let (grid, image) = (grid_of(w, h), grid_of(w, h + 3));
        for mask in stages() {
            for mode in MODES {
                let past = vec![1 - mode.around.cell(); image - grid];
                for cell in [0, 1] {
                    let from = [vec![cell; grid], past.clone()].concat();
                    let case = Case::stage(stage_word(mask), mode, (w, h), &from, image);
                    checker.answers(&case, 0);
                }
            }
        }
    }
    println!("{} cases", checker.cases);
}

#[test]
fn stages_on_random_sizes() {
    let (mut maker, mut checker) = (Maker::new(304), Checker::new(305));
    for _ in 0..400 {
        let size = maker.size();
        let case = maker.stage(size);
        checker.answers(&case, 0);
    }
}

#[test]
fn stages_on_the_greatest_size() {
    let (mut maker, mut checker) = (Maker::new(306), Checker::new(307));
    let (size, grid) = ((240, 240), grid_of(240, 240));
    assert_eq!(grid, 255 * 255, "bytes of the greatest grid");
    for mask in [3, 5, 9, 65, 257, 84, 511] {
        for mode in MODES {
            let random = maker.image(size, 0);
            for from in [vec![0; grid], vec![1; grid], random] {
                let case = Case::stage(stage_word(mask), mode, size, &from, grid);
                checker.answers(&case, 0);
            }
        }
    }
    for _ in 0..40 {
        checker.answers(&maker.stage(size), 0);
    }
}

#[test]
fn every_frame_of_nine_cells_or_fewer() {
    let mut checker = Checker::new(308);
    for (w, h) in small_sizes().into_iter().filter(|(w, h)| w * h <= 9) {
        for bits in 0u32..1 << (w * h) {
            let frame: Vec<u8> = (0..w * h).map(|i| (bits >> i & 1) as u8).collect();
            checker.answers(&Case::load(w, h, &frame), bits.count_ones().into());
            for extra in EXTRA {
                for around in AROUND {
                    let image_n = grid_of(w, h) + extra;
                    checker.answers(&Case::put(w, h, &frame, around, image_n), 0);
                }
            }
        }
    }
    println!("{} cases", checker.cases);
}

#[test]
fn frames_of_random_sizes() {
    let (mut maker, mut checker) = (Maker::new(309), Checker::new(310));
    let edges = [(240, 240), (240, 1), (1, 240), (240, 239), (239, 240)];
    for round in 0..800 {
        let size = match round % 20 {
            0 => maker.random.pick(&edges),
            _ => maker.size(),
        };
        let case = maker.put(size);
        checker.answers(&case, 0);
        let occupied = case.read.iter().filter(|&&cell| cell == 1).count();
        checker.answers(&Case::load(case.w, case.h, &case.read), occupied as i64);
    }
}

#[test]
fn loads_of_full_frames() {
    let mut checker = Checker::new(311);
    for w in 1..=240 {
        for h in [1, 16, 240] {
            checker.answers(&Case::load(w, h, &vec![1; w * h]), (w * h) as i64);
            checker.answers(&Case::load(w, h, &vec![0; w * h]), 0);
        }
    }
}
