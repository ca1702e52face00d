//! Walks, and one pair a corner at a time.

use crate::{ffi, Contour, Error, IntPoint, IntVector};
use core::iter::FusedIterator;

/// A walk round a contour, from its lowest, then leftmost corner, counter-clockwise; a reflected
/// one from the highest, then rightmost, with points and edges negated. As an iterator it hands out
/// the edges.
///
/// ```
/// use bezinkwolu::{Error, IntPoint, IntVector, PartTable, Walk};
/// let table: PartTable = [[(2, 0), (0, 2), (0, 0)]].into_iter().collect();
/// let mut walk = Walk::new(table.contour(0).unwrap(), false)?;
/// assert_eq!(walk.point(), IntPoint::new(0, 0));
/// assert_eq!(walk.next(), Some(IntVector { x: 2, y: 0 }));
/// assert_eq!(walk.point(), IntPoint::new(2, 0));
/// assert_eq!(walk.count(), 2);
/// # Ok::<(), Error>(())
/// ```
#[derive(Debug, Clone)]
#[must_use = "a walk steps only when it is asked"]
pub struct Walk<'a> {
    contour: Contour<'a>,
    at: ffi::Place,
    point: IntPoint,
}

impl<'a> Walk<'a> {
    /// Begins a walk.
    ///
    /// ```
    /// use bezinkwolu::{Error, PartTable, Walk};
    /// let table: PartTable = [[(0, 0); 0]].into_iter().collect();
    /// assert_eq!(Walk::new(table.contour(0).unwrap(), false).err(), Some(Error::EMPTY));
    /// ```
    ///
    /// # Errors
    /// The first that holds of [`Error::RULES`] (more than 1,026 corners), [`Error::RANGE`],
    /// [`Error::WINDING`] and [`Error::EMPTY`].
    pub fn new(contour: Contour<'a>, reflected: bool) -> Result<Self, Error> {
        let told = ffi::walk_begin(contour.numbers(), reflected);
        Error::told(told.fault)?;
        let point = point(contour, told.place)?;
        Ok(Self {
            contour,
            at: told.place,
            point,
        })
    }

    /// Where the walk stands.
    ///
    /// ```
    /// use bezinkwolu::{Error, IntPoint, PartTable, Walk};
    /// let table: PartTable = [[(0, 0), (2, 0), (0, 2)]].into_iter().collect();
    /// let walk = Walk::new(table.contour(0).unwrap(), true)?;
    /// assert_eq!(walk.point(), IntPoint::new(0, -2));
    /// # Ok::<(), Error>(())
    /// ```
    #[must_use]
    pub fn point(&self) -> IntPoint {
        self.point
    }
}

fn point(contour: Contour, at: ffi::Place) -> Result<IntPoint, Error> {
    let told = ffi::walk_point(contour.numbers(), at);
    Error::told(told.fault)?;
    Ok(IntPoint::new(told.x, told.y))
}

impl Iterator for Walk<'_> {
    type Item = IntVector;

    /// The next edge; none where no step is left.
    fn next(&mut self) -> Option<IntVector> {
        // a walk that was begun is refused a step only when none is left
        let told = ffi::walk_next(self.contour.numbers(), self.at);
        Error::told(told.fault).ok()?;
        self.at = told.place;
        self.point = point(self.contour, told.place).ok()?;
        Some(IntVector { x: told.x, y: told.y })
    }
}

impl FusedIterator for Walk<'_> {}

/// One pair's contour, a corner at a time. Each step reads both contours whole: of many corners,
/// [`crate::sum_parts`] takes far less time.
///
/// ```
/// use bezinkwolu::{ConvexSum, Error, IntPoint, PartTable};
/// let table: PartTable = [[(0, 0), (2, 0), (0, 2)]].into_iter().collect();
/// let k = table.contour(0).unwrap();
/// let corners: Vec<IntPoint> = ConvexSum::new(k, k)?.collect();
/// assert_eq!(corners, [(0, 0), (4, 0), (0, 4)].map(IntPoint::from));
/// # Ok::<(), Error>(())
/// ```
#[derive(Debug, Clone)]
#[must_use = "a pair hands out corners only when it is asked"]
pub struct ConvexSum<'a> {
    a: Contour<'a>,
    b: Contour<'a>,
    at: ffi::Places,
}

impl<'a> ConvexSum<'a> {
    fn begin(difference: bool, a: Contour<'a>, b: Contour<'a>) -> Result<Self, Error> {
        let told = ffi::pair_begin(difference, a.numbers(), b.numbers());
        Error::told(told.fault)?;
        Ok(Self { a, b, at: told.places })
    }

    /// Begins the sum of two contours.
    ///
    /// ```
    /// # use bezinkwolu::{ConvexSum, Error, PartTable};
    /// let table: PartTable = [[(1, 1)], [(2, 2)]].into_iter().collect();
    /// let points = ConvexSum::new(table.contour(0).unwrap(), table.contour(1).unwrap())?;
    /// assert_eq!(points.count(), 0, "two points emit nothing");
    /// # Ok::<(), Error>(())
    /// ```
    ///
    /// # Errors
    /// The first that holds of [`Error::RULES`], [`Error::RANGE`], [`Error::WINDING`] and
    /// [`Error::EMPTY`], each over the first contour and then the second.
    pub fn new(a: Contour<'a>, b: Contour<'a>) -> Result<Self, Error> {
        Self::begin(false, a, b)
    }

    /// Begins their difference, the second contour turned through the origin.
    ///
    /// ```
    /// # use bezinkwolu::{ConvexSum, Error, IntPoint, PartTable};
    /// # let table: PartTable = [[(0, 0), (2, 0), (0, 2)]].into_iter().collect();
    /// # let k = table.contour(0).unwrap();
    /// let first = ConvexSum::difference(k, k)?.next();
    /// assert_eq!(first, Some(IntPoint::new(0, -2)));
    /// # Ok::<(), Error>(())
    /// ```
    ///
    /// # Errors
    /// Those of [`Self::new`].
    pub fn difference(a: Contour<'a>, b: Contour<'a>) -> Result<Self, Error> {
        Self::begin(true, a, b)
    }
}

impl Iterator for ConvexSum<'_> {
    type Item = IntPoint;

    fn next(&mut self) -> Option<IntPoint> {
        // a pair that was begun is never refused a step
        let told = ffi::pair_next(self.a.numbers(), self.b.numbers(), self.at);
        Error::told(told.fault).ok()?;
        self.at = told.places;
        (told.corners == 1).then_some(IntPoint::new(told.x, told.y))
    }
}

impl FusedIterator for ConvexSum<'_> {}
