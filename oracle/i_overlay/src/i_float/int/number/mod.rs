//! The number traits, each implemented for one type: `i32`, `i64`, `u64`, and
//! the product of two `u64`.

pub mod int;
pub mod product_uint;
pub mod signed_product;
pub mod uint;
pub mod wide_int;
