//! The coordinate types that an overlay takes: here `i32` alone.

use crate::i_float::int::number::int::IntNumber;

pub trait OverlayInt: IntNumber {}

impl OverlayInt for i32 {}
