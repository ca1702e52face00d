//! The type of crosses and areas: `i64`. Its operators panic on overflow (the
//! workspace builds with overflow checks in every profile).

use super::uint::UIntNumber;
use std::fmt::Debug;
use std::ops::{Add, Mul, Neg, Shl, Sub};

pub trait WideIntNumber:
    Copy
    + Debug
    + Ord
    + Neg<Output = Self>
    + Add<Output = Self>
    + Sub<Output = Self>
    + Mul<Output = Self>
    + Shl<u32, Output = Self>
{
    type UInt: UIntNumber;

    const ZERO: Self;
    const ONE: Self;

    /// Of a value not below zero.
    fn to_uint(self) -> Self::UInt;

    /// Of a value below 2^63.
    fn from_uint(value: Self::UInt) -> Self;

    fn unsigned_abs(self) -> Self::UInt;
}

impl WideIntNumber for i64 {
    type UInt = u64;

    const ZERO: Self = 0;
    const ONE: Self = 1;

    fn to_uint(self) -> u64 {
        u64::try_from(self).expect("a value below zero read as unsigned")
    }

    fn from_uint(value: u64) -> Self {
        i64::try_from(value).expect("a value of 2^63 or more read as signed")
    }

    fn unsigned_abs(self) -> u64 {
        i64::unsigned_abs(self)
    }
}
