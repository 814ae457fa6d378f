//! (m) The call that hands back the part: it refuses nothing, changes nothing but the
//! number of the image, and its part is empty where document 01 says so and where it is
//! asked for with a refusal.

use musqerpi_tests::operations::check::{part_of, Lent};
use musqerpi_tests::operations::{reference, Case, Op};
use musqerpi_tests::random::Random;

const SIDES: [usize; 16] = [
    0,
    1,
    2,
    3,
    15,
    16,
    239,
    240,
    241,
    242,
    256,
    1 << 16,
    (1 << 32) + 1,
    usize::MAX / 2 + 1,
    usize::MAX - 1,
    usize::MAX,
];

const STAGES: [i64; 12] = [0, 1, 2, 3, 29, 30, 59, 60, 255, 256, i64::MAX - 1, i64::MAX];

/// Refusals, and numbers below 0 that no call answers.
const NEGATIVE: [i64; 10] = [
    -1,
    -2,
    -13,
    -14,
    -15,
    -16,
    -256,
    i32::MIN as i64,
    i64::MIN + 1,
    i64::MIN,
];

/// Asks for the part in guarded memory with dirty images of these lengths.
fn check(stages: i64, size: (usize, usize), images: (usize, usize), random: &mut Random) -> i64 {
    let case = Case::new(Op::Dilate, &[], size, &[], images);
    let mut lent = Lent::of(&case, random);
    let before = lent.clone();
    let (image, length) = part_of(stages, size, &mut lent);
    let asked = format!("{stages} stages, {size:?}, images of {images:?} bytes");
    assert!(lent == before, "{asked}: something changed");
    let wanted = reference::part(stages, size, images);
    assert_eq!((length, image), wanted, "{asked}");
    length
}

#[test]
fn all_numbers_of_stages() {
    let mut random = Random::new(801);
    for stages in (0..=60).chain(STAGES) {
        assert_eq!(check(stages, (4, 3), (400, 400), &mut random), 12);
        let (first, second) = if stages % 2 == 1 { (12, 0) } else { (0, 12) };
        assert_eq!(check(stages, (4, 3), (first, second), &mut random), 12);
        assert_eq!(check(stages, (4, 3), (second, first), &mut random), 0);
    }
}

/// No part of any size, in images of any length, and nothing but the number changes.
#[test]
fn negative_numbers() {
    let mut random = Random::new(805);
    for stages in NEGATIVE {
        for size in [
            (4, 3),
            (1, 1),
            (240, 240),
            (0, 3),
            (241, 1),
            (usize::MAX, 2),
        ] {
            for images in [(70_000, 70_000), (12, 12), (0, 0), (0, 400), (400, 0)] {
                assert_eq!(check(stages, size, images, &mut random), 0);
                assert_eq!(reference::image_of(stages), 0);
            }
        }
    }
}

#[test]
fn sizes() {
    let mut random = Random::new(802);
    let (mut empty, mut whole) = (0, 0);
    for w in SIDES {
        for h in SIDES {
            // As many bytes as the cut product has, if they are few; else many.
            let cells = w.wrapping_mul(h);
            let n = if cells < 70_000 { cells } else { 70_000 };
            for stages in [0, 1, 2, 7, i64::MAX] {
                for images in [(n, n), (70_000, n), (n, 70_000)] {
                    match check(stages, (w, h), images, &mut random) {
                        0 => empty += 1,
                        length => {
                            assert_eq!(length as usize, w * h, "{w} by {h}");
                            whole += 1;
                        }
                    }
                }
            }
        }
    }
    println!("{empty} empty, {whole} whole");
    assert!(empty > 2_000 && whole == 7 * 7 * 15, "{empty}, {whole}");
}

/// Images of W × H bytes, of one more or fewer, of a grid, of none, in all pairs.
#[test]
fn lengths_of_the_images() {
    let mut random = Random::new(803);
    for (w, h) in [(1, 1), (5, 1), (1, 6), (7, 8), (240, 1), (240, 240)] {
        let (cells, grid) = (w * h, (w + 15) * (h + 15));
        let lengths = [0, 1, cells - 1, cells, cells + 1, grid - 1, grid, grid + 1];
        for first in lengths {
            for second in lengths {
                for stages in [0, 1, 4, 5] {
                    let chosen = if stages % 2 == 1 { first } else { second };
                    let wanted = if chosen < cells { 0 } else { cells };
                    let length = check(stages, (w, h), (first, second), &mut random);
                    assert_eq!(length as usize, wanted, "{stages}, {first}, {second}");
                }
            }
        }
    }
}

#[test]
fn sizes_at_random() {
    let mut random = Random::new(804);
    let mut counts = [0; 2];
    for _ in 0..20_000 {
        let size = (random.below(244), random.below(244));
        let near = (size.0 * size.1 + random.below(3)).saturating_sub(1);
        let other = random.below(3_000);
        let images = match random.once_in(2) {
            true => (near, other),
            false => (other, near),
        };
        let stages = random.below(61) as i64;
        let length = check(stages, size, images, &mut random);
        counts[usize::from(length > 0)] += 1;
    }
    println!("empty and whole parts {counts:?}");
    assert!(counts.iter().all(|&count| count > 2_000), "{counts:?}");
}
