//! Document 01's rule for `Triangle::area_two`: the doubled signed area, above
//! zero where a, b, c run counter-clockwise.

use super::int::number::int::IntNumber;
use super::int::point::IntPoint;

pub struct Triangle;

impl Triangle {
    pub fn area_two<I: IntNumber>(a: IntPoint<I>, b: IntPoint<I>, c: IntPoint<I>) -> I::Wide {
        (b - a).cross_product(c - a)
    }
}
