//! Document 01's rule for `simplify_contour`: corners whose turn is 0 are
//! dropped, order kept; the first is never one.

use super::shape::IntContour;
use crate::i_float::int::number::int::IntNumber;
use crate::i_float::int::number::wide_int::WideIntNumber;
use crate::i_float::int::point::IntPoint;

pub trait Simplify {
    /// Answers whether a corner was dropped.
    fn simplify_contour(&mut self) -> bool;
}

impl<I: IntNumber> Simplify for IntContour<I> {
    fn simplify_contour(&mut self) -> bool {
        if (0..self.len()).all(|i| turn(self, i) != I::Wide::ZERO) {
            return false;
        }
        let kept: Vec<IntPoint<I>> = (0..self.len())
            .filter(|&i| turn(self, i) != I::Wide::ZERO)
            .map(|i| self[i])
            .collect();
        assert!(
            kept.first() == self.first(),
            "the first corner lies in line, which document 01 says it never does"
        );
        *self = kept;
        true
    }
}

/// The cross of the edge into corner i and the edge out of it.
fn turn<I: IntNumber>(contour: &[IntPoint<I>], i: usize) -> I::Wide {
    let last = contour.len() - 1;
    let before = contour[if i == 0 { last } else { i - 1 }];
    let after = contour[if i == last { 0 } else { i + 1 }];
    (contour[i] - before).cross_product(after - contour[i])
}
