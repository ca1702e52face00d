//! Integer geometry.

pub mod number;
pub mod point;
pub mod rect;
pub mod vector;
