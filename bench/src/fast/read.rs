//! Reading lists: one pass gathers what each ground needs, then the first that
//! holds is answered.

use super::Bounds;

/// Of a mask: bit 7 that it is a stage, bits 2-3 its h, bits 0-1 its w.
static MASKS: [u8; 512] = masks();

const fn masks() -> [u8; 512] {
    let mut table = [0; 512];
    let mut mask = 0;
    while mask < 512 {
        table[mask] = of_mask(mask as u32);
        mask += 1;
    }
    table
}

const fn of_mask(mask: u32) -> u8 {
    let columns = (mask | mask >> 3 | mask >> 6) & 7;
    let rows = (mask & 7 != 0) as u32
        | ((mask >> 3 & 7 != 0) as u32) << 1
        | ((mask >> 6 != 0) as u32) << 2;
    if columns & 1 == 0 || rows & 1 == 0 || mask.count_ones() < 2 {
        return 0;
    }
    (0x80 | (31 - rows.leading_zeros()) << 2 | (31 - columns.leading_zeros())) as u8
}

#[inline]
fn first_of(kinds: bool, bits: bool, third: i64) -> i64 {
    if kinds {
        2
    } else if bits {
        3
    } else {
        third
    }
}

/// The bounds of a shape list, or the first of grounds 1 to 4.
#[inline]
pub fn read_shape(list: &[u32]) -> Result<Bounds, i64> {
    if list.len() < 2 || list.len() > 17 {
        return Err(1);
    }
    let anchor = list[0];
    let mut kinds = (anchor >> 28) ^ 1;
    let mut bits = anchor & 0x0fff_ff00;
    let (mut bad_row, mut columns, mut before) = (false, 0, -1);
    for &row in &list[1..] {
        kinds |= (row >> 28) ^ 2;
        bits |= row & 0x0ff0_0000;
        let y = (row >> 16 & 15) as i32;
        bad_row |= row as u16 == 0 || y <= before;
        before = y;
        columns |= row as u16;
    }
    if kinds | bits != 0 || bad_row {
        return Err(first_of(kinds != 0, bits != 0, 4));
    }
    let (left, top) = (columns.trailing_zeros(), list[1] >> 16 & 15);
    Ok(Bounds {
        left,
        top,
        x: left as i32 - (anchor & 15) as i32,
        y: top as i32 - (anchor >> 4 & 15) as i32,
        w: 15 - columns.leading_zeros() as i32 - left as i32,
        h: before - top as i32,
    })
}

/// The corner and extents of a plan's points, or the first of grounds 1 to 7.
#[inline]
pub fn read_plan(list: &[u32]) -> Result<(i32, i32, i32, i32), i64> {
    if list.len() < 2 || list.len() > 32 {
        return Err(1);
    }
    let (head, place) = (list[0], list[1]);
    let mut kinds = ((head >> 28) ^ 3) | ((place >> 28) ^ 4);
    let mut bits = (head & 0x0fff_ff00) | (place & 0x0fff_0000);
    let (mut bad_mask, mut before, mut w, mut h) = (false, 0, 0, 0);
    for &stage in &list[2..] {
        kinds |= (stage >> 28) ^ 5;
        bits |= stage & 0x0fff_fe00;
        let mask = stage & 0x1ff;
        let known = MASKS[mask as usize];
        bad_mask |= known == 0 || mask < before;
        before = mask;
        w += i32::from(known & 3);
        h += i32::from(known >> 2 & 3);
    }
    let (dx, dy) = ((place & 0xff) as i32, (place >> 8 & 0xff) as i32);
    let third = match () {
        _ if (head & 0xff) as usize + 2 != list.len() => 5,
        _ if dx > 30 || dy > 30 => 6,
        _ if bad_mask => 7,
        _ => 0,
    };
    match first_of(kinds != 0, bits != 0, third) {
        0 => Ok((dx - 15, dy - 15, w, h)),
        number => Err(number),
    }
}
