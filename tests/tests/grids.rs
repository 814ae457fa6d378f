//! (s) Both kinds of grid, with results written out or by cells of the plane: where putting
//! lays the frame, what a single stage reads outside, and the stages of a plan in turn.

use musqerpi_tests::frames::cells::Cells;
use musqerpi_tests::frames::makers::{stages, Maker};
use musqerpi_tests::frames::{grid_of, library, stage_word, Around, Mode, AROUND, MODES};
use musqerpi_tests::reference::points::{bounds, of_mask, of_plan};

/// 0, and some of the bytes that all say the same as 1.
const BYTES: [u8; 5] = [0, 1, 2, 128, 255];

fn mode(erode: bool, around: Around) -> Mode {
    Mode { erode, around }
}

/// The frame, put into the first of two images full of 7, and taken through the masks
/// in turn, each time into the other image; the last grid.
fn in_turn(size: (usize, usize), frame: &[u8], masks: &[u32], mode: Mode) -> Vec<u8> {
    let grid = grid_of(size.0, size.1);
    let (mut from, mut to) = (vec![7; grid + 5], vec![7; grid + 5]);
    let answer = library::put(size.0, size.1, frame, mode.around, &mut from);
    assert_eq!(answer, 0, "put {size:?} {frame:?}");
    for &mask in masks {
        let answer = library::stage(stage_word(mask), mode, size, &from, &mut to);
        assert_eq!(answer, 0, "stage {mask} on {size:?}");
        std::mem::swap(&mut from, &mut to);
    }
    let dirt = from.split_off(grid);
    assert_eq!(dirt, [7; 5], "bytes past the grid");
    from
}

/// A grid for a frame of one cell, 16 rows of 16 bytes, after a single stage.
fn staged(mask: u32, mode: Mode, from: &[u8]) -> Vec<u8> {
    let mut to = vec![7; 256];
    let answer = library::stage(stage_word(mask), mode, (1, 1), from, &mut to);
    assert_eq!(answer, 0, "{mode:?} by {mask}");
    to
}

/// The plan's stages in turn are its sum at once, and the grid loses nothing of it: past
/// the grid all cells are as those outside.
#[test]
fn stages_in_turn_are_their_sum() {
    let mut maker = Maker::new(312);
    let mut plans = musqerpi_tests::lists::Maker::new(313);
    let (mut tried, mut longest, mut some) = (0, 0, [[0; 3]; 4]);
    while tried < 300 {
        let mut plan = plans.plan();
        plan[1] = 0x4000_0f0f;
        let sum = of_plan(&plan);
        let (w, h) = bounds(&sum).1;
        if w > 15 || h > 15 {
            continue;
        }
        (tried, longest) = (tried + 1, longest.max(plan.len() - 2));
        let masks: Vec<u32> = plan[2..].iter().map(|word| word & 0x1ff).collect();
        let size = (1 + maker.random.below(30), 1 + maker.random.below(30));
        let frame = maker.cells(size.0 * size.1);
        for (i, mode) in MODES.into_iter().enumerate() {
            let (start, outside) = (mode.around.start(), mode.around.cell());
            let last = in_turn(size, &frame, &masks, mode);
            let found = Cells::new(&last, size.0 + 15, start, outside);
            let x = Cells::new(&frame, size.0, 0, outside);
            let wanted = match mode.erode {
                true => x.eroded(&sum),
                false => x.dilated(&sum),
            };
            let about = (size.0 + 40, size.1 + 40);
            let (found, wanted) = (found.cut(-20, about), wanted.cut(-20, about));
            assert_eq!(found, wanted, "{mode:?} by {plan:x?} on {size:?} {frame:?}");
            let unlike = [1 - outside, 2, outside].map(|cell| wanted.contains(&cell));
            (0..3).for_each(|kind| some[i][kind] += u32::from(unlike[kind]));
        }
    }
    assert!(longest >= 20, "the longest plan has {longest} stages");
    let enough = some.as_flattened().iter().all(|&count| count >= 20);
    assert!(
        enough,
        "unlike those outside, not measured, like them {some:?}"
    );
}

/// Row 0 of a grid of one row of cells and 15 other rows: these, and the rest as it is
/// outside.
fn assert_row(grid: &[u8], around: Around, cells: &[u8]) {
    let mut wanted = vec![around.cell(); grid.len()];
    let start = match around {
        Around::Free => 0,
        Around::Occupied => grid.len() - grid.len() / 16 + 15,
    };
    wanted[start..start + cells.len()].copy_from_slice(cells);
    assert_eq!(grid, wanted, "{around:?}: wanted {cells:?} in row 0");
}

#[test]
fn the_documents_frames() {
    let eroded = |frame: &[u8], masks: &[u32], around: Around, wanted: &[u8]| {
        let grid = in_turn((frame.len(), 1), frame, masks, mode(true, around));
        assert_row(&grid, around, wanted);
    };
    // Columns 0 and 1 of one row, and the point (1, 0), whose plan has no stage.
    eroded(&[1, 1], &[3], Around::Free, &[1, 0]);
    eroded(&[1, 1], &[3], Around::Occupied, &[1, 1]);
    eroded(&[1, 1, 0], &[3], Around::Free, &[1, 0, 0]);
    eroded(&[1, 0, 0], &[], Around::Occupied, &[1, 0, 0]);
    // Columns 0 to 2 of one row: closing is not cut to the frame in between.
    let (dilate, erode) = (mode(false, Around::Free), mode(true, Around::Free));
    let dilated = in_turn((3, 1), &[1, 0, 1], &[7], dilate);
    assert_row(&dilated, Around::Free, &[1, 1, 1, 1, 1]);
    let mut closed = vec![7; dilated.len()];
    let answer = library::stage(stage_word(7), erode, (3, 1), &dilated, &mut closed);
    assert_eq!(answer, 0, "erosion of the dilated grid");
    assert_row(&closed, Around::Free, &[1, 1, 1]);
}

/// Erosion by columns 0 and 1 frees the cell before a free one, also before column 0,
/// where the second kind of grid has cells and the first has none; by rows likewise.
#[test]
fn a_free_cell_grows_to_the_left() {
    let erode = mode(true, Around::Occupied);
    let last = in_turn((3, 1), &[1, 1, 0], &[3], erode);
    assert_row(&last, Around::Occupied, &[1, 0, 0]);
    let last = in_turn((3, 1), &[0, 1, 1], &[3; 15], erode);
    let mut wanted = vec![1; 18 * 16];
    wanted[15 * 18..15 * 18 + 16].fill(0);
    assert_eq!(last, wanted, "columns -15 to 0 are free");
    let last = in_turn((1, 3), &[0, 1, 1], &[9; 15], erode);
    let free = |place: usize| place % 16 == 15 && place / 16 < 16;
    let wanted: Vec<u8> = (0..16 * 18).map(|place| u8::from(!free(place))).collect();
    assert_eq!(last, wanted, "rows -15 to 0 are free");
}

/// Dilation by columns 0 and 1 leaves a cell free if it and the one before it were, and
/// what is around the frame is occupied.
#[test]
fn free_cells_shrink_from_the_left() {
    let dilate = mode(false, Around::Occupied);
    let last = in_turn((4, 1), &[1, 0, 0, 1], &[3], dilate);
    assert_row(&last, Around::Occupied, &[1, 1, 0, 1]);
    let last = in_turn((2, 1), &[0, 0], &[3], dilate);
    assert_row(&last, Around::Occupied, &[1, 0]);
}

/// The frame stands in the last H rows and W columns of the second kind of grid.
#[test]
fn where_the_frame_is_put() {
    for (w, h) in [(1, 1), (3, 1), (1, 4), (2, 3), (20, 17), (240, 240)] {
        for around in AROUND {
            let from = match around {
                Around::Free => 0,
                Around::Occupied => 15,
            };
            let frame = vec![1 - around.cell(); w * h];
            let mut image = vec![7; grid_of(w, h) + 1];
            assert_eq!(library::put(w, h, &frame, around, &mut image), 0);
            for y in 0..h + 15 {
                for x in 0..w + 15 {
                    let inside = (from..from + w).contains(&x) && (from..from + h).contains(&y);
                    let wanted = around.cell() ^ u8::from(inside);
                    let cell = image[y * (w + 15) + x];
                    assert_eq!(cell, wanted, "{around:?}, {w} by {h}, ({x}, {y})");
                }
            }
            assert_eq!(image[grid_of(w, h)], 7, "the byte past the grid");
        }
    }
}

/// What stands outside on each of the four sides, by grids that no frame was put into:
/// all cells are unlike those outside, or all are like them, and masks look one and two
/// cells past an edge.
#[test]
fn what_is_outside_on_each_side() {
    // Masks of cells 0 and 1, or 0 and 2, of a row and of a column.
    for (mask, across, step) in [(3, true, 1), (5, true, 2), (9, false, 1), (65, false, 2)] {
        for mode in MODES {
            let outside = mode.around.cell();
            let to = staged(mask, mode, &[1 - outside; 256]);
            let same = staged(mask, mode, &[outside; 256]);
            assert_eq!(same, [outside; 256], "{mode:?} by {mask}, all alike");
            // Dilation by a free outside and erosion by an occupied one change nothing.
            let seen = mode.erode == (outside == 0);
            for (place, &cell) in to.iter().enumerate() {
                let at = if across { place % 16 } else { place / 16 };
                let by_edge = if mode.erode {
                    at >= 16 - step
                } else {
                    at < step
                };
                let wanted = if seen && by_edge {
                    outside
                } else {
                    1 - outside
                };
                assert_eq!(cell, wanted, "{mode:?} by {mask} at {place}");
            }
        }
    }
}

/// Cell (i, j) is bit 3j + i: dilation moves to it, erosion back from it. A free cell
/// among occupied ones goes the other way.
#[test]
fn one_cell_is_moved_by_the_masks_cells() {
    let place = |x: i64, y: i64| (y * 16 + x) as usize;
    for mask in stages() {
        for around in AROUND {
            let (outside, sign) = match around {
                Around::Free => (0, 1),
                Around::Occupied => (1, -1),
            };
            let (mut from, mut wanted) = (vec![outside; 256], vec![outside; 256]);
            from[place(5, 6)] ^= 1;
            for (i, j) in of_mask(mask) {
                wanted[place(5 + sign * i, 6 + sign * j)] = 1 - outside;
            }
            let grows = around == Around::Occupied;
            let grown = staged(mask, mode(grows, around), &from);
            assert_eq!(grown, wanted, "mask {mask}, {around:?}");
            let shrunk = staged(mask, mode(!grows, around), &grown);
            assert_eq!(shrunk, from, "mask {mask}, {around:?}: back to one cell");
        }
    }
}

/// Anything but 0 erodes, and anything but 0 is the second kind of grid.
#[test]
fn every_byte_of_erode_and_around() {
    let (word, size, grid) = (stage_word(3), (3, 1), 18 * 16);
    for around in 0..=255 {
        let mut from = vec![7; grid];
        let answer = library::put_by_byte(size, &[1, 1, 0], around, &mut from);
        assert_eq!(answer, 0, "put, around {around}");
        let kind = AROUND[usize::from(around != 0)];
        assert_row(&from, kind, &[1, 1, 0]);
        for erode in (0..=255).filter(|&erode| around < 3 || BYTES.contains(&erode)) {
            let mut to = vec![7; grid];
            let answer = library::stage_by_bytes(word, (erode, around), size, &from, &mut to);
            assert_eq!(answer, 0, "erode {erode}, around {around}");
            let wanted: &[u8] = match (erode, around) {
                (0, _) => &[1, 1, 1],
                _ => &[1, 0, 0],
            };
            assert_row(&to, kind, wanted);
        }
    }
}

/// A refusal is the same for every byte, and nothing is written.
#[test]
fn refusals_by_every_byte_of_around() {
    for around in 0..=255 {
        let mut image = vec![7; 18 * 16];
        let put =
            |frame: &[u8], image: &mut [u8]| library::put_by_byte((3, 1), frame, around, image);
        assert_eq!(put(&[1, 3, 0], &mut image), -13, "around {around}");
        assert_eq!(put(&[1, 0], &mut image), -12, "around {around}");
        assert_eq!(put(&[1, 0, 1], &mut image[1..]), -14, "around {around}");
        for erode in BYTES {
            let mut stage = |word: u32, from: &[u8]| {
                library::stage_by_bytes(word, (erode, around), (3, 1), from, &mut image)
            };
            assert_eq!(stage(0x5000_0003, &[1; 287]), -14, "around {around}");
            assert_eq!(stage(0x5000_0003, &[3; 288]), -13, "around {around}");
            assert_eq!(stage(0x5000_0001, &[1; 288]), -7, "around {around}");
        }
        assert_eq!(image, [7; 288], "around {around}");
    }
}
