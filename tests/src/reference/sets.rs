//! Sets of points with small coordinates, each as one long number: the point
//! (x, y) is the bit STRIDE * y + x. Adding a point to all others is then a shift.

use super::points::Point;

/// A number of 128 bits holds points with x and y up to 7, one of four times as many
/// those with x and y up to 15. A stride is twice the side: the sum of two points in
/// range stays in its row.
#[derive(Clone, Copy, PartialEq, Eq)]
pub struct Set<const WORDS: usize>([u128; WORDS]);

impl<const WORDS: usize> Set<WORDS> {
    const STRIDE: usize = if WORDS == 1 { 16 } else { 32 };

    pub fn of(points: &[Point]) -> Self {
        let mut set = Set([0; WORDS]);
        for &(x, y) in points {
            let bit = Self::STRIDE * y as usize + x as usize;
            set.0[bit / 128] |= 1 << (bit % 128);
        }
        set
    }

    /// The numbers of the points.
    fn bits(&self) -> impl Iterator<Item = usize> + '_ {
        let words = self.0.iter().enumerate();
        words.flat_map(|(i, &word)| {
            let mut left = word;
            std::iter::from_fn(move || {
                let bit = left.trailing_zeros() as usize;
                left &= left.wrapping_sub(1);
                (bit < 128).then_some(128 * i + bit)
            })
        })
    }

    /// Every number raised by `by`; what goes past the last bit is lost.
    fn raised(&self, by: usize) -> Self {
        let (words, bits) = (by / 128, by % 128);
        let mut set = Set([0; WORDS]);
        for i in words..WORDS {
            set.0[i] = self.0[i - words] << bits;
            if bits > 0 && i > words {
                set.0[i] |= self.0[i - words - 1] >> (128 - bits);
            }
        }
        set
    }

    /// Every number lowered by `by`; what would go below 0 is lost.
    fn lowered(&self, by: usize) -> Self {
        let (words, bits) = (by / 128, by % 128);
        let mut set = Set([0; WORDS]);
        for i in 0..WORDS - words {
            set.0[i] = self.0[i + words] >> bits;
            if bits > 0 && i + words + 1 < WORDS {
                set.0[i] |= self.0[i + words + 1] << (128 - bits);
            }
        }
        set
    }

    /// All sums of a point of one and a point of the other. No sum may go past the
    /// greatest x and y that a set holds.
    pub fn plus(&self, other: &Self) -> Self {
        let mut sum = Set([0; WORDS]);
        for bit in other.bits() {
            let moved = self.raised(bit);
            for (to, word) in sum.0.iter_mut().zip(moved.0) {
                *to |= word;
            }
        }
        sum
    }

    /// The points p for which p + q is here for every q of the other, which isn't
    /// empty. It has a point with x = 0 and one with y = 0, so p has no x or y below 0.
    pub fn minus(&self, other: &Self) -> Self {
        let mut rest = Set([u128::MAX; WORDS]);
        for bit in other.bits() {
            let moved = self.lowered(bit);
            for (to, word) in rest.0.iter_mut().zip(moved.0) {
                *to &= word;
            }
        }
        rest
    }
}
