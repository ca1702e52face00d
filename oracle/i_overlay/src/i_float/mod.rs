//! Integer points, vectors and the numbers below them.

pub mod int;
pub mod triangle;
