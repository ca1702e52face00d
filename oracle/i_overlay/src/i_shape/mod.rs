//! Contours and what hands them out.

pub mod int;
pub mod source;
