//! The product of two unsigned words, kept as two words.
//!
//! `divide_with_rounding` is document 01's rule: to nearest, a half away from
//! zero (the magnitude is unsigned, so a half goes up).

use std::cmp::Ordering;
use std::fmt::Debug;

pub trait UIntProduct<U>: Copy + Debug + Ord {
    const ZERO: Self;

    fn multiply(a: U, b: U) -> Self;

    /// None where the sum does not fit two words.
    fn checked_add(self, other: Self) -> Option<Self>;

    /// None where `other` is the greater.
    fn checked_sub(self, other: Self) -> Option<Self>;

    /// The quotient to nearest, a half up. Panics where the divisor is zero or
    /// the quotient does not fit one word.
    fn divide_with_rounding(self, divisor: U) -> U;
}

/// high · 2^64 + low.
#[derive(Debug, Clone, Copy, PartialEq, Eq)]
pub struct Product64 {
    pub high: u64,
    pub low: u64,
}

impl Product64 {
    fn whole(self) -> u128 {
        (u128::from(self.high) << 64) | u128::from(self.low)
    }

    fn of(whole: u128) -> Self {
        Self {
            high: (whole >> 64) as u64,
            low: whole as u64,
        }
    }
}

impl Ord for Product64 {
    fn cmp(&self, other: &Self) -> Ordering {
        self.high
            .cmp(&other.high)
            .then_with(|| self.low.cmp(&other.low))
    }
}

impl PartialOrd for Product64 {
    fn partial_cmp(&self, other: &Self) -> Option<Ordering> {
        Some(self.cmp(other))
    }
}

impl UIntProduct<u64> for Product64 {
    const ZERO: Self = Self { high: 0, low: 0 };

    fn multiply(a: u64, b: u64) -> Self {
        Self::of(u128::from(a) * u128::from(b))
    }

    /// The low words are added so that they wrap, and the carry goes to the
    /// high word (document 01).
    fn checked_add(self, other: Self) -> Option<Self> {
        let (low, carry) = self.low.overflowing_add(other.low);
        let high = self.high.checked_add(other.high)?;
        let high = high.checked_add(u64::from(carry))?;
        Some(Self { high, low })
    }

    fn checked_sub(self, other: Self) -> Option<Self> {
        self.whole().checked_sub(other.whole()).map(Self::of)
    }

    fn divide_with_rounding(self, divisor: u64) -> u64 {
        let divisor = u128::from(divisor);
        let quotient = self.whole() / divisor;
        let rest = self.whole() % divisor;
        let up = u128::from(rest >= divisor - rest);
        u64::try_from(quotient + up).expect("a quotient leaves one word")
    }
}

#[cfg(test)]
mod tests {
    use super::*;

    fn divided(value: u128, divisor: u64) -> u64 {
        Product64::of(value).divide_with_rounding(divisor)
    }

    #[test]
    fn division_goes_to_nearest_and_halves_go_up() {
        assert_eq!(divided(0, 2), 0);
        assert_eq!(divided(1, 2), 1);
        assert_eq!(divided(3, 2), 2);
        assert_eq!(divided(1, 3), 0);
        assert_eq!(divided(2, 3), 1);
        assert_eq!(divided(u128::from(u64::MAX) * 7 + 3, 7), u64::MAX);
        let odd = (1u64 << 63) - 1;
        assert_eq!(divided(u128::from(odd / 2), odd), 0);
        assert_eq!(divided(u128::from(odd / 2 + 1), odd), 1);
    }

    #[test]
    fn sums_carry_into_the_high_word() {
        let all = Product64 {
            high: 0,
            low: u64::MAX,
        };
        let one = Product64 { high: 0, low: 1 };
        assert_eq!(all.checked_add(one), Some(Product64 { high: 1, low: 0 }));
        let top = Product64 {
            high: u64::MAX,
            low: u64::MAX,
        };
        assert_eq!(top.checked_add(one), None);
        assert_eq!(one.checked_sub(all), None);
    }
}
