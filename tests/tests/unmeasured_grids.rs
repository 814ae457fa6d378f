//! (x) Putting and the single stage with cells that weren't measured, in both kinds of grid:
//! every two and three values together, every mask, and grids of all kinds of width.

use musqerpi_tests::frames::check::Checker;
use musqerpi_tests::frames::makers::{every_frame, sizes_of, stages, Maker};
use musqerpi_tests::frames::{grid_of, library, stage_word, Case, Mode, AROUND, MODES};

/// What dilation gives of two cells: row by the one, column by the other.
const DILATED: [[u8; 3]; 3] = [[0, 1, 2], [1, 1, 1], [2, 1, 2]];

/// What erosion gives of two cells.
const ERODED: [[u8; 3]; 3] = [[0, 0, 0], [0, 1, 2], [0, 2, 2]];

fn given(erode: bool, one: u8, other: u8) -> u8 {
    let table = if erode { ERODED } else { DILATED };
    table[usize::from(one)][usize::from(other)]
}

/// A grid for a frame of one cell, 16 rows of 16 bytes, after a single stage.
fn staged(mask: u32, mode: Mode, from: &[u8]) -> Vec<u8> {
    let mut to = vec![7; 256];
    let answer = library::stage(stage_word(mask), mode, (1, 1), from, &mut to);
    assert_eq!(answer, 0, "{mode:?} by {mask}");
    to
}

/// Columns 0 and 1, and 0 and 2, and the same of rows, inside the grid: each of the nine
/// pairs at each place that covers both cells.
#[test]
fn every_two_values() {
    for (mask, step) in [(3, 1), (5, 2), (9, 16), (65, 32), (17, 17), (257, 34)] {
        for mode in MODES {
            for pair in every_frame(2) {
                let (mut from, near) = (vec![mode.around.cell(); 256], 5 * 16 + 6);
                (from[near], from[near + step]) = (pair[0], pair[1]);
                let to = staged(mask, mode, &from);
                let place = if mode.erode { near } else { near + step };
                let wanted = given(mode.erode, pair[0], pair[1]);
                assert_eq!(to[place], wanted, "{mode:?} by {mask} of {pair:?}");
            }
        }
    }
}

/// Three cells of a row or a column: all 27, by the two before and the third.
#[test]
fn every_three_values() {
    for (mask, step) in [(7, 1), (73, 16), (273, 17)] {
        for mode in MODES {
            for three in every_frame(3) {
                let (mut from, near) = (vec![mode.around.cell(); 256], 5 * 16 + 6);
                (0..3).for_each(|i| from[near + i * step] = three[i]);
                let to = staged(mask, mode, &from);
                let place = if mode.erode { near } else { near + 2 * step };
                let two = given(mode.erode, three[0], three[1]);
                let wanted = given(mode.erode, two, three[2]);
                assert_eq!(to[place], wanted, "{mode:?} by {mask} of {three:?}");
            }
        }
    }
}

/// A cell of each value at the edge of the grid, with what is outside beside it.
#[test]
fn every_value_at_the_edge() {
    for (mask, across) in [(3, true), (9, false)] {
        for mode in MODES {
            for value in [0, 1, 2] {
                let to = staged(mask, mode, &[value; 256]);
                let wanted = given(mode.erode, value, mode.around.cell());
                let last = if mode.erode { 15 } else { 0 };
                for (place, &cell) in to.iter().enumerate() {
                    let at = if across { place % 16 } else { place / 16 };
                    let wanted = if at == last { wanted } else { value };
                    assert_eq!(cell, wanted, "{mode:?} by {mask}, {value}, {place}");
                }
            }
        }
    }
}

/// Grids of one value with one cell of another, at the corners, on the sides and inside, by
/// all masks; and half of the cells not measured.
#[test]
fn every_mask() {
    let (mut maker, mut checker) = (Maker::new(1401), Checker::new(1402));
    for (w, h) in [(1, 1), (3, 2)] {
        let (width, grid) = (w + 15, grid_of(w, h));
        let inside = [7 * width + 7, width + 1, grid - width - 2];
        let corners = [0, width - 1, grid - width, grid - 1];
        let places = [&corners[..], &[7, 7 * width, grid - 8], &inside].concat();
        for mask in stages() {
            for mode in MODES {
                for (others, one) in [(0, 2), (1, 2), (2, 0), (2, 1)] {
                    let mut from = vec![others; grid];
                    from[maker.random.pick(&places)] = one;
                    let case = Case::stage(stage_word(mask), mode, (w, h), &from, grid);
                    checker.answers(&case, 0);
                }
                let mut from = maker.image((w, h), 30);
                from.iter_mut().step_by(2).for_each(|cell| *cell = 2);
                let case = Case::stage(stage_word(mask), mode, (w, h), &from, grid + 9);
                checker.answers(&case, 0);
            }
        }
    }
    println!("{} cases", checker.cases);
}

/// Frames and grids about one and several words wide and high, each size with other masks,
/// so that all come up: random cells, the last of the rows and the grid's corners among
/// them not measured.
#[test]
fn every_mask_on_larger_grids() {
    let (mut maker, mut checker) = (Maker::new(1403), Checker::new(1404));
    let sides = [1, 48, 49, 50, 63, 64, 65, 239, 240];
    let sizes: Vec<_> = sides.map(|w| sides.map(|h| (w, h))).concat();
    for (i, mask) in stages().into_iter().enumerate() {
        let size = sizes[i % sizes.len()];
        let (width, grid) = (size.0 + 15, grid_of(size.0, size.1));
        for mode in MODES {
            let extra = maker.extra();
            let mut from = maker.image(size, extra);
            for place in [0, width - 1, width, grid - width, grid - 1] {
                from[place] = maker.random.pick(&[0, 1, 2, 2]);
            }
            let case = Case::stage(stage_word(mask), mode, size, &from, grid + 20);
            checker.answers(&case, 0);
        }
    }
    println!("{} cases", checker.cases);
}

/// Every frame of eight cells or fewer over the three values is put as it is.
#[test]
fn every_small_frame_put() {
    let mut checker = Checker::new(1405);
    for size in (1..=8).flat_map(sizes_of) {
        for frame in every_frame(size.0 * size.1) {
            for around in AROUND {
                let image_n = grid_of(size.0, size.1) + 1;
                let case = Case::put(size.0, size.1, &frame, around, image_n);
                checker.answers(&case, 0);
            }
        }
    }
    println!("{} cases", checker.cases);
}
