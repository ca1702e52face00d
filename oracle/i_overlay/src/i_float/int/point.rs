//! Integer points. A difference of two is a vector of wide components.

use super::number::int::IntNumber;
use super::vector::IntVector;
use std::ops::{Add, Sub};

#[derive(Debug, Clone, Copy, PartialEq, Eq)]
pub struct IntPoint<I: IntNumber> {
    pub x: I,
    pub y: I,
}

impl<I: IntNumber> IntPoint<I> {
    pub const ZERO: Self = Self {
        x: I::ZERO,
        y: I::ZERO,
    };

    pub const fn new(x: I, y: I) -> Self {
        Self { x, y }
    }
}

impl<I: IntNumber> Add for IntPoint<I> {
    type Output = Self;

    fn add(self, other: Self) -> Self {
        Self::new(self.x + other.x, self.y + other.y)
    }
}

impl<I: IntNumber> Sub for IntPoint<I> {
    type Output = IntVector<I>;

    fn sub(self, other: Self) -> IntVector<I> {
        IntVector::new(
            self.x.to_wide() - other.x.to_wide(),
            self.y.to_wide() - other.y.to_wide(),
        )
    }
}
