//! A signed product: a sign, and a magnitude of two words.

use super::product_uint::UIntProduct;
use super::uint::UIntNumber;
use super::wide_int::WideIntNumber;

type Magnitude<I> = <<I as WideIntNumber>::UInt as UIntNumber>::Product;

#[derive(Debug, Clone, Copy)]
pub struct SignedProduct<I: WideIntNumber> {
    negative: bool,
    magnitude: Magnitude<I>,
}

impl<I: WideIntNumber> SignedProduct<I> {
    /// Zero has no sign.
    fn new(negative: bool, magnitude: Magnitude<I>) -> Self {
        Self {
            negative: negative && magnitude != Magnitude::<I>::ZERO,
            magnitude,
        }
    }

    pub fn multiply(a: I, b: I) -> Self {
        Self::new(
            (a < I::ZERO) != (b < I::ZERO),
            Magnitude::<I>::multiply(a.unsigned_abs(), b.unsigned_abs()),
        )
    }

    /// None where the magnitude does not fit two words.
    pub fn checked_add(self, other: Self) -> Option<Self> {
        if self.negative == other.negative {
            let magnitude = self.magnitude.checked_add(other.magnitude)?;
            return Some(Self::new(self.negative, magnitude));
        }
        let (greater, lesser) = if self.magnitude >= other.magnitude {
            (self, other)
        } else {
            (other, self)
        };
        let magnitude = greater.magnitude.checked_sub(lesser.magnitude)?;
        Some(Self::new(greater.negative, magnitude))
    }

    pub fn magnitude(&self) -> Magnitude<I> {
        self.magnitude
    }

    pub fn is_negative(&self) -> bool {
        self.negative
    }
}

#[cfg(test)]
mod tests {
    use super::*;

    fn value(p: SignedProduct<i64>) -> i128 {
        let magnitude = (i128::from(p.magnitude().high) << 64) | i128::from(p.magnitude().low);
        if p.is_negative() {
            -magnitude
        } else {
            magnitude
        }
    }

    #[test]
    fn sums_are_those_of_the_integers() {
        let numbers = [0, 1, -1, 7, -9, i64::MAX, -i64::MAX, 1 << 40, -(1 << 40)];
        for a in numbers {
            for b in numbers {
                for c in numbers {
                    for d in numbers {
                        let left = SignedProduct::multiply(a, b);
                        let right = SignedProduct::multiply(c, d);
                        let sum = left.checked_add(right).map(value);
                        let expected =
                            i128::from(a) * i128::from(b) + i128::from(c) * i128::from(d);
                        assert_eq!(sum, Some(expected));
                    }
                }
            }
        }
    }
}
