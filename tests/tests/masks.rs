//! (u) The normal position of a mask: every argument against a table that is worked out in
//! two ways, masks written out by hand, the documents' counts, and planning and ground 7.

use musqerpi_tests::cases::hex;
use musqerpi_tests::library::{normal_position, plan, shape_of_plan};
use musqerpi_tests::masks::{filled, table, MASKS};
use musqerpi_tests::reference::points::{bounds, of_mask, to_list};
use std::collections::BTreeSet;

/// The library answers this number for this argument.
fn gives(argument: u16, wanted: u16) {
    let answer = normal_position(argument);
    assert_eq!(
        answer, wanted,
        "argument {argument} ({argument:#o}): answered {answer}, expected {wanted}"
    );
}

/// The nine lowest bits are read, so the table's entry is that of the remainder by 512.
#[test]
fn every_argument() {
    let table = table();
    for argument in 0..=u16::MAX {
        gives(argument, table[usize::from(argument % MASKS)]);
    }
}

/// From the mask, and from the normal mask by all its moves: no mask but 0 is left out, and
/// none is filled twice.
#[test]
fn both_tables_agree() {
    let (table, filled) = (table(), filled());
    let lengths = (table.len(), filled.len());
    assert_eq!(lengths, (512, 512), "{lengths:?} entries, not 512 in both");
    let zero = (table[0], filled[0].len());
    assert_eq!(
        zero,
        (0, 0),
        "mask 0: entry and times filled {zero:?}, not 0 and 0"
    );
    for (mask, (entry, found)) in table.iter().zip(&filled).enumerate().skip(1) {
        let one = [*entry];
        assert_eq!(found, &one, "mask {mask}: filled by {found:?}, not {one:?}");
    }
    let times: usize = filled.iter().map(Vec::len).sum();
    assert_eq!(times, 511, "filled {times} times, not 511");
}

/// The library against the second table alone.
#[test]
fn every_mask_from_the_other_side() {
    for (mask, found) in (0..MASKS).zip(filled()) {
        gives(mask, found.first().copied().unwrap_or(0));
    }
}

/// In base 8, where each digit is a row and the last one is row 0.
#[test]
fn written_out() {
    gives(0, 0);
    gives(80, 10);
    gives(0o120, 0o012);
    // One cell, anywhere.
    for cell in 0..9 {
        gives(1 << cell, 1);
    }
    // Rows, columns and the whole square.
    for (mask, wanted) in [(0o700, 7), (0o070, 7), (0o444, 0o111), (0o222, 0o111)] {
        gives(mask, wanted);
    }
    gives(0o777, 0o777);
    // Both diagonals, and what is left of them without a corner.
    for (mask, wanted) in [
        (0o421, 0o421),
        (0o124, 0o124),
        (0o420, 0o021),
        (0o240, 0o012),
    ] {
        gives(mask, wanted);
    }
    // Column 0 has a cell in another row than row 0 only: nothing moves.
    for mask in [0o102, 0o104, 0o012, 0o014, 0o142] {
        gives(mask, mask);
    }
    // Two cells with a free row or column between them.
    for (mask, wanted) in [(0o404, 0o101), (0o500, 5), (0o202, 0o101), (0o050, 5)] {
        gives(mask, wanted);
    }
}

/// What has been moved as far as it goes doesn't move again.
#[test]
fn the_answer_of_an_answer() {
    for argument in 0..=u16::MAX {
        let answer = normal_position(argument);
        let again = normal_position(answer);
        assert_eq!(
            again, answer,
            "argument {argument}: its answer {answer} gave {again}, expected {answer}"
        );
    }
}

/// 400 of one cell or more, 399 of two or more, over all arguments.
#[test]
fn the_number_of_answers() {
    let answers: BTreeSet<u16> = (0..=u16::MAX).map(normal_position).collect();
    for (cells, wanted) in [(0, 401), (1, 400), (2, 399)] {
        let enough = |mask: &&u16| mask.count_ones() >= cells;
        let count = answers.iter().filter(enough).count();
        assert_eq!(
            count, wanted,
            "arguments 0 to 65,535: {count} answers of {cells} cells or more, expected {wanted}"
        );
    }
}

/// The library against itself, whatever stands in the seven bits that aren't read.
#[test]
fn bits_above_the_ninth() {
    for high in (0..=u16::MAX).step_by(MASKS.into()) {
        for mask in 0..MASKS {
            gives(high + mask, normal_position(mask));
        }
    }
    // Each of the seven alone, and all of them.
    for high in [512, 1_024, 2_048, 4_096, 8_192, 16_384, 32_768, 65_024] {
        gives(high, 0);
        gives(high + 80, 10);
        gives(high + 511, 511);
    }
}

/// A mask of two cells or more, read as a shape, is planned as one stage: the mask's normal
/// position, placed where the mask's least column and row are.
#[test]
fn the_stage_that_planning_writes() {
    for mask in (0..MASKS).filter(|mask| mask.count_ones() >= 2) {
        let points = of_mask(mask.into());
        let (column, row) = bounds(&points).0;
        let place = 0x4000_0f0f + column as u32 + row as u32 * 256;
        let answer = normal_position(mask);
        let wanted = [0x3000_0001, place, 0x5000_0000 + u32::from(answer)];
        let mut out = [0; 32];
        let length = plan(&to_list(&points), &mut out);
        let asked = format!("argument {mask}: answered {answer}");
        assert_eq!(length, 3, "{asked}, planning gave {length}, expected 3");
        let (found, wanted) = (hex(&out[..3]), hex(&wanted));
        assert_eq!(found, wanted, "{asked}, planned {found}, expected {wanted}");
    }
}

/// A plan of one stage passes ground 7 exactly if the mask has two cells or more and is its
/// own normal position.
#[test]
fn the_stages_that_a_plan_may_have() {
    for mask in 0..MASKS {
        let answer = normal_position(mask);
        let wanted = match mask.count_ones() >= 2 && answer == mask {
            true => to_list(&of_mask(mask.into())).len() as i64,
            false => -7,
        };
        let list = [0x3000_0001, 0x4000_0f0f, 0x5000_0000 + u32::from(mask)];
        let given = shape_of_plan(&list, &mut [0; 17]);
        assert_eq!(
            given, wanted,
            "argument {mask}: answered {answer}, its plan gave {given}, expected {wanted}"
        );
    }
}
