//! Integer vectors, of wide components.

use super::number::int::IntNumber;

#[derive(Debug, Clone, Copy, PartialEq, Eq)]
pub struct IntVector<I: IntNumber> {
    pub x: I::Wide,
    pub y: I::Wide,
}

impl<I: IntNumber> IntVector<I> {
    pub const fn new(x: I::Wide, y: I::Wide) -> Self {
        Self { x, y }
    }

    pub fn cross_product(self, other: Self) -> I::Wide {
        self.x * other.y - self.y * other.x
    }

    pub fn dot_product(self, other: Self) -> I::Wide {
        self.x * other.x + self.y * other.y
    }
}
