//! Outlines from a drawing program.

use crate::{ffi, Error, IntPoint};
use alloc::vec::Vec;

/// An item of a path with the millimetres that it carries, with SVG's meaning.
///
/// ```
/// use bezinkwolu::PathItem;
/// assert_ne!(PathItem::Line(1.0, 2.0), PathItem::RelativeLine(1.0, 2.0));
/// ```
#[derive(Debug, Clone, Copy, PartialEq)]
pub enum PathItem {
    /// To a point: SVG's `M`.
    Move(f64, f64),
    /// A line to a point: `L`.
    Line(f64, f64),
    /// A line to this x at the same y: `H`.
    Horizontal(f64),
    /// A line to this y at the same x: `V`.
    Vertical(f64),
    /// A line by so much from the point before: `l`. It adds in `f64`, with one rounding.
    RelativeLine(f64, f64),
    /// The end, which is no corner: `Z`.
    Close,
}

impl From<&PathItem> for ffi::Item {
    fn from(item: &PathItem) -> Self {
        let (kind, x, y) = match *item {
            PathItem::Move(x, y) => (0, x, y),
            PathItem::Line(x, y) => (1, x, y),
            PathItem::Horizontal(x) => (2, x, 0.0),
            PathItem::Vertical(y) => (3, 0.0, y),
            PathItem::RelativeLine(x, y) => (4, x, y),
            PathItem::Close => (5, 0.0, 0.0),
        };
        Self { kind, x, y }
    }
}

/// Where the grid lies: an origin in millimetres, and how many steps a millimetre has, a power of
/// two from 1 to 1,024.
///
/// ```
/// use bezinkwolu::Frame;
/// assert_eq!(Frame::new(0.0, 0.0, 64.0).steps, 64.0);
/// ```
#[repr(C)]
#[derive(Debug, Clone, Copy, PartialEq)]
pub struct Frame {
    /// The x of the grid's (0, 0).
    pub x: f64,
    /// The y of the grid's (0, 0).
    pub y: f64,
    /// Steps a millimetre.
    pub steps: f64,
}

impl Frame {
    /// A frame by its origin and its step count.
    ///
    /// ```
    /// assert_eq!(bezinkwolu::Frame::new(1.0, 2.0, 4.0).y, 2.0);
    /// ```
    #[must_use]
    pub const fn new(x: f64, y: f64, steps: f64) -> Self {
        Self { x, y, steps }
    }
}

/// The corners of a path on the grid: a point's millimetres less the origin, times the step count,
/// to the nearest whole number, halves away from zero. Relative lines add in f64, one rounding
/// each; of the point so reached each coordinate lies within one half plus 2^-23 of the exact
/// difference times the step count.
///
/// Refused, each over the whole path: [`Error::PATH`] for a step count that is no such power, a
/// number that is not finite, a point past 1,048,576 from zero, or where the path does not open
/// with its only move or end with its only close; [`Error::RULES`] for more than 1,026 corners;
/// [`Error::RANGE`] for a coordinate of the grid.
///
/// ```
/// use bezinkwolu::{import_path, Error, Frame, IntPoint, PathItem::*};
///
/// let path = [Move(0.5, 0.0), Horizontal(2.5), RelativeLine(0.0, 1.0), Close];
/// let corners = import_path(&path, Frame::new(0.0, 0.0, 1.0))?;
/// assert_eq!(corners, [(1, 0), (3, 0), (3, 1)].map(IntPoint::from));
///
/// assert_eq!(import_path(&path[..3], Frame::new(0.0, 0.0, 1.0)), Err(Error::PATH));
/// # Ok::<(), Error>(())
/// ```
pub fn import_path(path: &[PathItem], frame: Frame) -> Result<Vec<IntPoint>, Error> {
    let items: Vec<ffi::Item> = path.iter().map(ffi::Item::from).collect();
    let numbers = ffi::import_path(&items, frame)?;
    Ok(numbers.chunks_exact(2).map(|c| IntPoint::new(c[0], c[1])).collect())
}
