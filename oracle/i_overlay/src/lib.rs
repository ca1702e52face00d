//! A stand-in for the crate `i_overlay` (with its `i_float` and `i_shape`),
//! which is not among the given files. It has only what the given iTriangle
//! files import, for `i32` coordinates with `i64` as their `Wide`.
//!
//! None of this is the original's text. The rules of `simplify_contour`,
//! `Triangle::area_two` and `divide_with_rounding` are document 01's; the overlay
//! hands back the paths that it was given.

pub mod core;
pub mod i_float;
pub mod i_shape;
