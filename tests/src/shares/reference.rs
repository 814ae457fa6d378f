//! The independent implementation of the load in ten-thousandths, from the words of document
//! 02: nothing is divided, the one pair that meets equation and bound is looked for.

use super::grounds::holding;
use super::Case;

#[derive(Clone, Copy, Debug, PartialEq, Eq)]
pub struct Share {
    pub quotient: i64,
    pub remainder: u32,
}

/// What the quotient leaves of 10,000 × occupied, if that is 0 or more and below the
/// number of measured cells.
fn left_by(quotient: i64, measured: i64, occupied: i64) -> Option<u32> {
    let remainder = 10_000 * occupied - quotient * measured;
    let bounded = (0..measured).contains(&remainder);
    bounded.then_some(remainder as u32)
}

/// The pair for so many occupied cells of so many measured ones. With no more occupied cells
/// than measured ones, a quotient above 10,000 leaves less than nothing.
pub fn share_of(measured: i64, occupied: i64) -> Share {
    let pair = |quotient| {
        let remainder = left_by(quotient, measured, occupied)?;
        Some(Share {
            quotient,
            remainder,
        })
    };
    let mut pairs = (0..=10_000).filter_map(pair);
    let share = pairs.next().expect("a pair that meets both");
    assert_eq!(pairs.next(), None, "one pair alone meets both");
    share
}

/// What a case comes to: quotient and remainder, or the first ground that holds.
pub fn run(case: &Case) -> Result<Share, i64> {
    if let Some(&ground) = holding(case).first() {
        return Err(ground);
    }
    let count = |value: u8| case.frame.iter().filter(|&&cell| cell == value).count() as i64;
    Ok(share_of(count(0) + count(1), count(1)))
}
