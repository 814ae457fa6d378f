//! The normal position of each of the 512 masks, by document 01 and request W4 of document
//! 02, worked out twice: by sets of cells from the mask, and by rows from the other side.

use crate::reference::points::{bounds, moved, of_mask, Point};

/// The number of masks: each of the nine cells is there or not.
pub const MASKS: u16 = 512;

/// The mask with these cells: cell (i, j) counts 2 to the power of 3j + i.
fn mask_of(cells: &[Point]) -> u16 {
    let worth = |&(i, j): &Point| 2u16.pow((3 * j + i) as u32);
    cells.iter().map(worth).sum()
}

/// The mask whose cells are those of this one, each moved by the least column and the
/// least row of them all; 0 for the mask without cells.
pub fn normal_position(mask: u16) -> u16 {
    let cells = of_mask(mask.into());
    if cells.is_empty() {
        return 0;
    }
    let (column, row) = bounds(&cells).0;
    mask_of(&moved(&cells, (-column, -row)))
}

/// The 512 entries.
pub fn table() -> Vec<u16> {
    (0..MASKS).map(normal_position).collect()
}

/// A mask by its three rows, each a number below 8 whose odd ones have a cell in column 0.
type Rows = [u16; 3];

/// Written in base 8, a mask's digits are its rows, row 0 the lowest.
fn of_rows([a, b, c]: Rows) -> u16 {
    64 * c + 8 * b + a
}

fn all_rows() -> impl Iterator<Item = Rows> {
    (0..MASKS).map(|n| [n % 8, n / 8 % 8, n / 64])
}

/// A cell in row 0, and one in column 0 of some row.
fn is_normal(rows: Rows) -> bool {
    rows[0] > 0 && rows.iter().any(|row| row % 2 == 1)
}

/// The rows moved by `s` columns and `t` rows, if all cells stay within the square.
fn moved_rows(rows: Rows, s: u32, t: usize) -> Option<Rows> {
    let (stay, leave) = rows.split_at(3 - t);
    let wide: Vec<u16> = stay.iter().map(|row| row * 2u16.pow(s)).collect();
    if leave.iter().any(|&row| row > 0) || wide.iter().any(|&row| row > 7) {
        return None;
    }
    let mut result = [0; 3];
    result[t..].copy_from_slice(&wide);
    Some(result)
}

/// For each mask, all the normal masks that some move takes to it: the table filled from
/// the other side. There should be one for each mask but 0, and none for 0.
pub fn filled() -> Vec<Vec<u16>> {
    let mut found = vec![Vec::new(); MASKS.into()];
    for rows in all_rows().filter(|&rows| is_normal(rows)) {
        let moves = (0..3).flat_map(|s| (0..3).map(move |t| (s, t)));
        for goal in moves.filter_map(|(s, t)| moved_rows(rows, s, t)) {
            found[usize::from(of_rows(goal))].push(of_rows(rows));
        }
    }
    found
}
