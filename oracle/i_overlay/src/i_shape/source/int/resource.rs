//! A source of paths: here a list of contours.

use crate::i_float::int::number::int::IntNumber;
use crate::i_float::int::point::IntPoint;
use crate::i_shape::int::shape::IntContour;

pub trait IntShapeResource<I: IntNumber> {
    fn iter_paths<'a>(&'a self) -> impl Iterator<Item = &'a [IntPoint<I>]>
    where
        I: 'a;
}

impl<I: IntNumber> IntShapeResource<I> for Vec<IntContour<I>> {
    fn iter_paths<'a>(&'a self) -> impl Iterator<Item = &'a [IntPoint<I>]>
    where
        I: 'a,
    {
        self.iter().map(|contour| contour.as_slice())
    }
}
