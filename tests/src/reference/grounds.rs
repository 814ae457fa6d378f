//! Grounds 1 to 7: each is asked of a whole list, and stands by itself.

/// A ground's number and the question whether it holds for a list.
pub type Ground = (i64, fn(&[u32]) -> bool);

/// The grounds of a shape list, in checking order.
pub const SHAPE: [Ground; 4] = [
    (1, shape_length),
    (2, shape_kind),
    (3, shape_extra_bit),
    (4, row_order),
];

/// The grounds of a plan list, in checking order.
pub const PLAN: [Ground; 6] = [
    (1, plan_length),
    (2, plan_kind),
    (3, plan_extra_bit),
    (5, stage_count),
    (6, place_field),
    (7, stage_mask),
];

/// The first ground that holds, each tried over all the lists before the next.
pub fn first(table: &[Ground], lists: &[&[u32]]) -> Option<i64> {
    let found = table
        .iter()
        .find(|(_, holds)| lists.iter().any(|list| holds(list)));
    found.map(|(number, _)| *number)
}

fn kind(word: u32) -> u32 {
    word >> 28
}

/// The bits that a kind names, and the kind itself.
fn named_bits(kind: u32) -> u32 {
    let fields = match kind {
        1 => 0x0000_00ff,
        2 => 0x000f_ffff,
        3 => 0x0000_00ff,
        4 => 0x0000_ffff,
        5 => 0x0000_01ff,
        _ => 0,
    };
    0xf000_0000 | fields
}

fn shape_kind_at(place: usize) -> u32 {
    if place == 0 {
        1
    } else {
        2
    }
}

fn plan_kind_at(place: usize) -> u32 {
    match place {
        0 => 3,
        1 => 4,
        _ => 5,
    }
}

fn wrong_kind(list: &[u32], kind_at: fn(usize) -> u32) -> bool {
    list.iter()
        .enumerate()
        .any(|(i, &word)| kind(word) != kind_at(i))
}

/// Bits are judged by the kind that the place calls for.
fn extra_bit(list: &[u32], kind_at: fn(usize) -> u32) -> bool {
    list.iter()
        .enumerate()
        .any(|(i, &word)| word & !named_bits(kind_at(i)) & 0x0fff_ffff != 0)
}

fn shape_length(list: &[u32]) -> bool {
    !(2..=17).contains(&list.len())
}

fn shape_kind(list: &[u32]) -> bool {
    wrong_kind(list, shape_kind_at)
}

fn shape_extra_bit(list: &[u32]) -> bool {
    extra_bit(list, shape_kind_at)
}

/// Ground 4: a row has no column, or its y isn't above the row before.
fn row_order(list: &[u32]) -> bool {
    let rows = list.get(1..).unwrap_or(&[]);
    let empty = rows.iter().any(|row| row & 0xffff == 0);
    let y = |row: u32| (row >> 16) & 0xf;
    empty || rows.windows(2).any(|pair| y(pair[1]) <= y(pair[0]))
}

fn plan_length(list: &[u32]) -> bool {
    !(2..=32).contains(&list.len())
}

fn plan_kind(list: &[u32]) -> bool {
    wrong_kind(list, plan_kind_at)
}

fn plan_extra_bit(list: &[u32]) -> bool {
    extra_bit(list, plan_kind_at)
}

/// Ground 5: the head's count isn't the number of words less 2.
fn stage_count(list: &[u32]) -> bool {
    list.first()
        .is_some_and(|head| (head & 0xff) as usize + 2 != list.len())
}

/// Ground 6: a place field is above 30.
fn place_field(list: &[u32]) -> bool {
    list.get(1)
        .is_some_and(|place| place & 0xff > 30 || (place >> 8) & 0xff > 30)
}

/// Ground 7: a mask isn't normal, has fewer than two cells, or is below the mask before.
fn stage_mask(list: &[u32]) -> bool {
    let stages = list.get(2..).unwrap_or(&[]);
    let mask = |stage: u32| stage & 0x1ff;
    let bad = stages.iter().any(|&stage| !is_stage(mask(stage)));
    bad || stages.windows(2).any(|pair| mask(pair[1]) < mask(pair[0]))
}

/// A stage is a mask in normal position with two cells or more.
pub fn is_stage(mask: u32) -> bool {
    let has = |i: u32, j: u32| mask >> (3 * j + i) & 1 == 1;
    let left = (0..3).any(|j| has(0, j));
    let top = (0..3).any(|i| has(i, 0));
    left && top && mask.count_ones() >= 2
}
