//! A coordinate's type. Here `i32`, whose `Wide` document 01 reads as signed 64
//! bits.

use super::uint::UIntNumber;
use super::wide_int::WideIntNumber;
use std::fmt::Debug;
use std::ops::{Add, Neg, Sub};

pub trait IntNumber:
    Copy + Debug + Ord + Neg<Output = Self> + Add<Output = Self> + Sub<Output = Self>
{
    type Wide: WideIntNumber<UInt = Self::WideUInt>;
    type WideUInt: UIntNumber;

    const ZERO: Self;
    const BITS: u32;

    fn to_wide(self) -> Self::Wide;

    /// Panics where the value does not fit, so that a run shows it.
    fn from_wide(value: Self::Wide) -> Self;
}

impl IntNumber for i32 {
    type Wide = i64;
    type WideUInt = u64;

    const ZERO: Self = 0;
    const BITS: u32 = i32::BITS;

    fn to_wide(self) -> i64 {
        i64::from(self)
    }

    fn from_wide(value: i64) -> Self {
        i32::try_from(value).expect("a coordinate leaves 32 bits")
    }
}
