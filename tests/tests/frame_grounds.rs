//! (h) The grounds of load, putting and the single stage, alone and together. Answers
//! are written out, and compared with the reference; a refusal changes nothing.

use musqerpi_tests::frames::check::Checker;
use musqerpi_tests::frames::grounds::holding;
use musqerpi_tests::frames::makers::Maker;
use musqerpi_tests::frames::refused::Kind;
use musqerpi_tests::frames::{grid_of, stage_word, Around, Case, Mode, AROUND, MODES};
use musqerpi_tests::reference::grounds::is_stage;

/// Sides that no frame has.
const BAD_SIDES: [usize; 13] = [
    0,
    241,
    242,
    255,
    256,
    257,
    1 << 16,
    (1 << 32) + 1,
    usize::MAX - 15,
    usize::MAX - 14,
    usize::MAX / 2 + 1,
    usize::MAX - 1,
    usize::MAX,
];
const GOOD_SIDES: [usize; 5] = [1, 2, 16, 239, 240];

/// The single stage of a mask in each mode on a size, with these bytes read.
fn single_stages(mask: u32, size: (usize, usize), from: &[u8], to_n: usize) -> Vec<Case> {
    let stage = |mode: Mode| Case::stage(stage_word(mask), mode, size, from, to_n);
    MODES.map(stage).to_vec()
}

/// Putting in both kinds of grid.
fn puts((w, h): (usize, usize), frame: &[u8], image_n: usize) -> Vec<Case> {
    let put = |around: Around| Case::put(w, h, frame, around, image_n);
    AROUND.map(put).to_vec()
}

/// The load, and putting in both kinds of grid.
fn frame_calls(size: (usize, usize), frame: &[u8], image_n: usize) -> Vec<Case> {
    let mut cases = vec![Case::load(size.0, size.1, frame)];
    cases.extend(puts(size, frame, image_n));
    cases
}

#[test]
fn sizes() {
    let mut checker = Checker::new(401);
    for bad in BAD_SIDES {
        for other in BAD_SIDES.into_iter().chain(GOOD_SIDES) {
            // As many bytes as the cut product has, if they are few; else some.
            let cells = bad.wrapping_mul(other);
            let read_n = if cells < 70_000 { cells } else { 300 };
            let grid = bad.wrapping_add(15).wrapping_mul(other.wrapping_add(15));
            let write_n = if grid < 70_000 { grid } else { 300 };
            for size in [(bad, other), (other, bad)] {
                for n in [read_n, write_n] {
                    let free = vec![0; n];
                    let mut cases = frame_calls(size, &free, write_n);
                    cases.extend(single_stages(3, size, &free, write_n));
                    for case in cases {
                        checker.answers(&case, -11);
                    }
                }
            }
        }
    }
    println!("{} cases", checker.cases);
}

#[test]
fn columns_240_pass_and_241_give_11() {
    let mut checker = Checker::new(402);
    for (side, refused) in [(240, false), (241, true)] {
        for size in [(side, 1), (1, side), (side, side), (240, side), (side, 240)] {
            let (cells, grid) = (size.0 * size.1, grid_of(size.0, size.1));
            let of = |answer: i64| if refused { -11 } else { answer };
            let load = Case::load(size.0, size.1, &vec![1; cells]);
            checker.answers(&load, of(cells as i64));
            let mut cases = puts(size, &vec![1; cells], grid);
            cases.extend(single_stages(511, size, &vec![1; grid], grid));
            for case in cases {
                checker.answers(&case, of(0));
            }
        }
    }
}

/// Lengths about one: none, one, one short, that, one more, twice.
fn about(n: usize) -> [usize; 6] {
    [0, 1, n - 1, n, n + 1, 2 * n]
}

#[test]
fn lengths() {
    let mut checker = Checker::new(403);
    for (w, h) in [
        (1, 1),
        (1, 2),
        (3, 1),
        (4, 4),
        (17, 2),
        (60, 31),
        (240, 240),
    ] {
        let (cells, grid) = (w * h, grid_of(w, h));
        for read_n in about(cells) {
            let frame = if read_n == cells { 0 } else { -12 };
            checker.answers(&Case::load(w, h, &vec![0; read_n]), frame);
            for image_n in about(grid).into_iter().chain([cells]) {
                let image = if image_n >= grid { 0 } else { -14 };
                let wanted = if frame != 0 { frame } else { image };
                for case in puts((w, h), &vec![1; read_n], image_n) {
                    checker.answers(&case, wanted);
                }
            }
        }
        for from_n in about(grid).into_iter().chain([cells]) {
            for to_n in about(grid).into_iter().chain([cells]) {
                let enough = from_n >= grid && to_n >= grid;
                for case in single_stages(17, (w, h), &vec![1; from_n], to_n) {
                    checker.answers(&case, if enough { 0 } else { -14 });
                }
            }
        }
    }
    println!("{} cases", checker.cases);
}

/// The case with this value at a place of the bytes read, which are all free else.
fn with_cell(case: &Case, place: usize, value: u8) -> Case {
    let mut case = case.clone();
    case.read[place] = value;
    case
}

#[test]
fn cells_above_2_at_each_place() {
    let mut checker = Checker::new(404);
    for (w, h) in [(1, 1), (2, 3), (4, 4), (9, 1), (240, 240)] {
        let grid = grid_of(w, h);
        for case in frame_calls((w, h), &vec![0; w * h], grid) {
            let last = w * h - 1;
            for place in (0..last.min(20)).chain([last / 2, last]) {
                for value in [3, 4, 128, 254, 255] {
                    checker.answers(&with_cell(&case, place, value), -13);
                }
            }
        }
        for case in single_stages(3, (w, h), &vec![0; grid + 3], grid) {
            for place in [0, 1, w - 1, w, w + 14, w + 15, grid / 2, grid - 2, grid - 1] {
                for value in [3, 4, 128, 254, 255] {
                    checker.answers(&with_cell(&case, place, value), -13);
                }
            }
            for past in 0..3 {
                checker.answers(&with_cell(&case, grid + past, 3), 0);
                checker.answers(&with_cell(&case, grid + past, 255), 0);
            }
        }
    }
    println!("{} cases", checker.cases);
}

/// An image that is too short is looked at for cells as far as it goes.
#[test]
fn cells_above_2_in_a_short_image() {
    let mut checker = Checker::new(405);
    let grid = grid_of(3, 2);
    for from_n in [1, 2, 100, grid - 1] {
        for to_n in [0, grid - 1, grid] {
            for case in single_stages(3, (3, 2), &vec![0; from_n], to_n) {
                checker.answers(&case, -14);
                checker.answers(&with_cell(&case, 0, 2), -14);
                checker.answers(&with_cell(&case, 0, 3), -13);
                checker.answers(&with_cell(&case, from_n - 1, 255), -13);
            }
        }
    }
}

#[test]
fn every_mask_and_every_kind() {
    let mut checker = Checker::new(406);
    let (size, grid) = ((2, 1), grid_of(2, 1));
    let from = Maker::new(407).image(size, 0);
    for mask in 0..512 {
        let valid = if is_stage(mask) { 0 } else { -7 };
        for kind in 0..16 {
            let word = kind << 28 | mask;
            let wanted = if kind == 5 { valid } else { -2 };
            for mode in MODES {
                checker.answers(&Case::stage(word, mode, size, &from, grid), wanted);
            }
        }
    }
    println!("{} cases", checker.cases);
}

#[test]
fn masks_written_out() {
    let mut checker = Checker::new(408);
    let grid = grid_of(1, 1);
    // 0; one cell; no cell with i = 0; no cell with j = 0; neither.
    let none = [
        0, 1, 2, 4, 8, 16, 256, 6, 36, 438, 24, 72, 504, 48, 432, 384,
    ];
    let stages = [3, 5, 9, 10, 12, 17, 65, 68, 84, 257, 510, 511];
    for (masks, wanted) in [(&none[..], -7), (&stages[..], 0)] {
        for &mask in masks {
            for case in single_stages(mask, (1, 1), &vec![1; grid], grid) {
                checker.answers(&case, wanted);
            }
        }
    }
}

#[test]
fn every_extra_bit() {
    let mut checker = Checker::new(409);
    let grid = grid_of(1, 2);
    for bit in 9..28 {
        for mask in [0, 1, 2, 3, 256, 510, 511] {
            for (kind, wanted) in [(5, -3), (4, -2), (0, -2), (13, -2), (15, -2)] {
                let word = kind << 28 | 1 << bit | mask;
                for mode in MODES {
                    let case = Case::stage(word, mode, (1, 2), &vec![1; grid], grid);
                    checker.answers(&case, wanted);
                }
            }
        }
    }
}

/// Every set of the call's grounds, so often: the least of them is the answer.
fn every_set(kind: Kind, grounds: &[i64], seed: u64) {
    let (mut maker, mut checker) = (Maker::new(seed), Checker::new(!seed));
    for set in 0..1 << grounds.len() {
        let chosen = grounds
            .iter()
            .enumerate()
            .filter(|(i, _)| set >> i & 1 == 1);
        let held: Vec<i64> = chosen.map(|(_, &ground)| ground).collect();
        for _ in 0..60 {
            let case = maker.refused(kind, &held);
            assert_eq!(holding(&case), held, "{case}");
            let full = case.read.len() as i64;
            let success = if kind == Kind::Load { full } else { 0 };
            checker.answers(&case, held.first().map_or(success, |ground| -ground));
        }
    }
    println!("{} cases", checker.cases);
}

#[test]
fn grounds_of_the_load_together() {
    every_set(Kind::Load, &[11, 12, 13], 410);
}

#[test]
fn grounds_of_putting_together() {
    every_set(Kind::Put, &[11, 12, 13, 14], 411);
}

#[test]
fn grounds_of_the_single_stage_together() {
    every_set(Kind::Stage, &[2, 3, 7, 11, 13, 14], 412);
}
