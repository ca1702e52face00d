//! Unsigned words: `u64`.

use super::product_uint::{Product64, UIntProduct};
use std::fmt::Debug;
use std::ops::{Add, Div, Mul, Sub};

pub trait UIntNumber:
    Copy
    + Debug
    + Ord
    + Add<Output = Self>
    + Sub<Output = Self>
    + Mul<Output = Self>
    + Div<Output = Self>
{
    type Product: UIntProduct<Self>;

    const ZERO: Self;
    const ONE: Self;
    /// The word with its highest bit alone, 2^63.
    const LAST_BIT: Self;

    fn from_u64(value: u64) -> Self;
}

impl UIntNumber for u64 {
    type Product = Product64;

    const ZERO: Self = 0;
    const ONE: Self = 1;
    const LAST_BIT: Self = 1 << 63;

    fn from_u64(value: u64) -> Self {
        value
    }
}
