//! Damages to a valid case.

use super::Maker;
use crate::cases::{Call, Case};
use crate::random::Random;

impl Maker {
    /// A case of the call with one damage or two.
    pub fn damaged(&mut self, call: Call) -> Case {
        let mut case = self.case(call);
        damage(&mut case, &mut self.random);
        if self.random.once_in(2) {
            damage(&mut case, &mut self.random);
        }
        case
    }
}

/// One damage: to the output's length, or to one of the lists.
pub fn damage(case: &mut Case, random: &mut Random) {
    if random.once_in(8) {
        case.out_n = random.below(case.call.least_output());
        return;
    }
    let second = case.call.takes_two_lists() && random.once_in(2);
    let limit = if case.call == Call::ShapeOfPlan {
        32
    } else {
        17
    };
    let list = if second { &mut case.b } else { &mut case.a };
    match random.below(8) {
        0 | 1 => flip_a_bit(list, random),
        2 => drop_a_word(list, random),
        3 => double_a_word(list, random),
        4 => swap_two_words(list, random),
        5 => cut(list, random),
        6 => lengthen(list, limit, random),
        _ => change_fields(list, random),
    }
}

fn flip_a_bit(list: &mut [u32], random: &mut Random) {
    if !list.is_empty() {
        list[random.below(list.len())] ^= 1 << random.below(32);
    }
}

fn drop_a_word(list: &mut Vec<u32>, random: &mut Random) {
    if !list.is_empty() {
        list.remove(random.below(list.len()));
    }
}

fn double_a_word(list: &mut Vec<u32>, random: &mut Random) {
    if !list.is_empty() {
        let place = random.below(list.len());
        list.insert(place, list[place]);
    }
}

fn swap_two_words(list: &mut [u32], random: &mut Random) {
    if !list.is_empty() {
        list.swap(random.below(list.len()), random.below(list.len()));
    }
}

fn cut(list: &mut Vec<u32>, random: &mut Random) {
    list.truncate(random.below(list.len() + 1));
}

/// Adds words like the last, or any: a few, or up to one or two past the limit.
fn lengthen(list: &mut Vec<u32>, limit: usize, random: &mut Random) {
    let end = match random.below(3) {
        0 => list.len() + 1 + random.below(3),
        1 => limit,
        _ => limit + 1 + random.below(2),
    };
    let any = random.once_in(4);
    while list.len() < end {
        let last = list.last().copied().unwrap_or(0);
        list.push(if any { random.word() } else { last });
    }
}

/// Gives a word other fields, its kind and its unnamed bits as they were.
fn change_fields(list: &mut [u32], random: &mut Random) {
    if list.is_empty() {
        return;
    }
    // The first words have the most fields to meet a ground, so half go there.
    let among = if random.once_in(2) {
        list.len().min(3)
    } else {
        list.len()
    };
    let word = &mut list[random.below(among)];
    let fields: u32 = match *word >> 28 {
        1 | 3 => 0xff,
        2 => random.pick(&[0xffff, 0xf_0000, 0xf_ffff]),
        4 => random.pick(&[0xff, 0xff00, 0x1f1f]),
        _ => 0x1ff,
    };
    let any = random.word();
    let value = random.pick(&[0, u32::MAX, word.wrapping_add(1), any, any, any]);
    *word = (*word & !fields) | (value & fields);
}
