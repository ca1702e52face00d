//! What hands out paths.

pub mod int;
