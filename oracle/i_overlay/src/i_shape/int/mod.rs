//! Contours, shapes, and dropping corners in line.

pub mod shape;
pub mod simple;
