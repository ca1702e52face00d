//! Bounds: the least and the greatest x and y.

use super::number::int::IntNumber;
use super::point::IntPoint;

#[derive(Debug, Clone, Copy, PartialEq, Eq)]
pub struct IntRect<I: IntNumber> {
    pub min_x: I,
    pub max_x: I,
    pub min_y: I,
    pub max_y: I,
}

impl<I: IntNumber> IntRect<I> {
    pub const fn new(min_x: I, max_x: I, min_y: I, max_y: I) -> Self {
        Self {
            min_x,
            max_x,
            min_y,
            max_y,
        }
    }

    /// None where there is no point.
    pub fn with_iter<'a, P>(mut points: P) -> Option<Self>
    where
        P: Iterator<Item = &'a IntPoint<I>>,
        I: 'a,
    {
        let first = points.next()?;
        let start = Self::new(first.x, first.x, first.y, first.y);
        Some(points.fold(start, |rect, p| {
            Self::new(
                rect.min_x.min(p.x),
                rect.max_x.max(p.x),
                rect.min_y.min(p.y),
                rect.max_y.max(p.y),
            )
        }))
    }
}
