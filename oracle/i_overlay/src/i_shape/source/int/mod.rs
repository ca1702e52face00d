//! What hands out paths of integer points.

pub mod resource;
