//! Cells of the window as sixteen rows of bits, and masks that grow and shrink them.

/// Cell (x, y) is bit x of row y.
pub type Rows = [u16; 16];

/// No plan has more stages: each adds at least 1 to w + h.
pub const MOST_STAGES: usize = 30;

/// The cells moved to least column and row 0.
pub fn least_position(rows: &Rows) -> Rows {
    let all = rows.iter().fold(0, |all, row| all | row);
    let right = all.trailing_zeros();
    let top = rows.iter().take_while(|&&row| row == 0).count();
    let mut moved = [0; 16];
    for (to, row) in moved.iter_mut().zip(&rows[top..]) {
        *to = row >> right;
    }
    moved
}

/// The last column and the last row with a cell.
pub fn extents(rows: &Rows) -> (usize, usize) {
    let all = rows.iter().fold(0u16, |all, row| all | row);
    let last = rows.iter().rposition(|&row| row != 0);
    (15 - all.leading_zeros() as usize, last.unwrap_or(0))
}

/// A mask in normal position with two cells or more.
pub const fn is_stage(mask: u16) -> bool {
    mask & 0o111 != 0 && mask & 0o007 != 0 && mask.count_ones() >= 2
}

/// (A ⊖ m) ⊕ m = A: no other stage m can be in a chain of A.
pub fn is_marked(shape: &Rows, mask: u16) -> bool {
    is_stage(mask) && grow(&shrink(shape, mask), mask) == *shape
}

/// The sum of cells and a mask, cut to the window.
pub fn grow(rows: &Rows, mask: u16) -> Rows {
    let mut sum = [0; 16];
    for j in 0..3 {
        let cells = mask >> (3 * j);
        let all_if = |i: u16| (cells >> i & 1).wrapping_neg();
        let (one, two, three) = (all_if(0), all_if(1), all_if(2));
        for y in j..16 {
            let row = rows[y - j];
            sum[y] |= (row & one) | ((row << 1) & two) | ((row << 2) & three);
        }
    }
    sum
}

/// The difference of cells and a mask: the points p with p + c among the cells for
/// every cell c of the mask.
pub fn shrink(rows: &Rows, mask: u16) -> Rows {
    let mut kept = [0xffff; 16];
    for j in 0..3 {
        let cells = mask >> (3 * j);
        let none_if = |i: u16| (cells >> i & 1).wrapping_sub(1);
        let (one, two, three) = (none_if(0), none_if(1), none_if(2));
        for y in 0..16 {
            let row = if y + j < 16 { rows[y + j] } else { 0 };
            kept[y] &= (row | one) & ((row >> 1) | two) & ((row >> 2) | three);
        }
    }
    kept
}
