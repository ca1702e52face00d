//! All pairs of two operands.

use crate::{ffi, Contour, Contours, Error, IntRect, PartTable};
use core::iter::FusedIterator;

/// Where a place lies by the contours of a [`PairTable`].
///
/// ```
/// use bezinkwolu::Placement;
/// assert_ne!(Placement::Touching, Placement::Overlapping);
/// ```
#[derive(Debug, Clone, Copy, PartialEq, Eq, Hash)]
pub enum Placement {
    /// Inside none of them.
    Apart,
    /// Inside one, on its rim, and strictly inside none.
    Touching,
    /// Strictly inside one.
    Overlapping,
}

impl Placement {
    /// That of the number that the archive tells: 0, 1 or 2.
    fn told(number: u32) -> Self {
        match number {
            0 => Self::Apart,
            1 => Self::Touching,
            _ => Self::Overlapping,
        }
    }
}

/// The contours of all pairs of two operands, and the bounds of the result.
///
/// ```
/// use bezinkwolu::{sum_parts, Error, IntRect, PartTable};
/// let k: PartTable = [[(0, 0), (2, 0), (0, 2)]].into_iter().collect();
/// let bbox = IntRect::new(0, 2, 0, 2);
/// let sums = sum_parts(&k, bbox, &k, bbox)?;
/// assert_eq!(sums.bbox(), IntRect::new(0, 4, 0, 4));
/// assert_eq!(format!("{:?}", sums.contours()), "[[(0, 0), (4, 0), (0, 4)]]");
/// # Ok::<(), Error>(())
/// ```
#[derive(Debug, Clone, PartialEq, Eq, Hash)]
pub struct PairTable {
    contours: PartTable,
    right: usize,
    bbox: IntRect,
}

impl PairTable {
    /// A table without contours, for [`sum_parts_into`] and [`difference_parts_into`] to fill.
    ///
    /// ```
    /// assert_eq!(bezinkwolu::PairTable::new().iter().len(), 0);
    /// ```
    #[must_use]
    pub fn new() -> Self {
        Self {
            contours: PartTable::new(),
            right: 0,
            bbox: IntRect::new(0, 0, 0, 0),
        }
    }

    /// All pairs in order, each with the numbers of its left part and its right part.
    ///
    /// ```
    /// # use bezinkwolu::{sum_parts, Error, IntRect, PartTable};
    /// let one: PartTable = [[(0, 0), (2, 0), (0, 2)]].into_iter().collect();
    /// let two: PartTable = [[(0, 0), (2, 0), (0, 2)], [(0, 0), (1, 0), (0, 1)]].into_iter().collect();
    /// let bbox = IntRect::new(0, 2, 0, 2);
    /// let sums = sum_parts(&one, bbox, &two, bbox)?;
    /// for (i, j, contour) in sums.iter() {
    ///     assert_eq!(Some(contour), sums.contour(i, j));
    /// }
    /// assert_eq!(sums.iter().map(|(i, j, _)| (i, j)).collect::<Vec<_>>(), [(0, 0), (0, 1)]);
    /// # Ok::<(), Error>(())
    /// ```
    pub fn iter(&self) -> Pairs<'_> {
        Pairs {
            contours: self.contours.iter(),
            right: self.right,
            i: 0,
            j: 0,
        }
    }

    /// The contour of left part i and right part j, empty where the pair emits nothing; none where
    /// there is no such pair.
    ///
    /// ```
    /// # use bezinkwolu::{difference_parts, Error, IntRect, PartTable};
    /// # let k: PartTable = [[(0, 0), (2, 0), (0, 2)]].into_iter().collect();
    /// # let bbox = IntRect::new(0, 2, 0, 2);
    /// let pairs = difference_parts(&k, bbox, &k, bbox)?;
    /// assert_eq!(pairs.contour(0, 0).map(|contour| contour.len()), Some(6));
    /// assert!(pairs.contour(0, 1).is_none());
    /// # Ok::<(), Error>(())
    /// ```
    #[must_use]
    pub fn contour(&self, i: usize, j: usize) -> Option<Contour<'_>> {
        if j >= self.right {
            return None;
        }
        self.contours.contour(i.checked_mul(self.right)?.checked_add(j)?)
    }

    /// All contours: one for each left part and, within it, each right part in order.
    ///
    /// ```
    /// # use bezinkwolu::{sum_parts, Error, IntRect, PartTable};
    /// # let k: PartTable = [[(0, 0), (2, 0), (0, 2)]].into_iter().collect();
    /// # let bbox = IntRect::new(0, 2, 0, 2);
    /// assert_eq!(sum_parts(&k, bbox, &k, bbox)?.contours().len(), 1);
    /// # Ok::<(), Error>(())
    /// ```
    #[must_use]
    pub fn contours(&self) -> &PartTable {
        &self.contours
    }

    /// The same, without the bounds.
    ///
    /// ```
    /// # use bezinkwolu::{sum_parts, Error, IntRect, PartTable};
    /// # let k: PartTable = [[(0, 0), (2, 0), (0, 2)]].into_iter().collect();
    /// # let bbox = IntRect::new(0, 2, 0, 2);
    /// let table: PartTable = sum_parts(&k, bbox, &k, bbox)?.into_contours();
    /// # Ok::<(), Error>(())
    /// ```
    #[must_use]
    pub fn into_contours(self) -> PartTable {
        self.contours
    }

    /// The bounds of the result: with them it is an operand again.
    ///
    /// ```
    /// # use bezinkwolu::{difference_parts, Error, IntRect, PartTable};
    /// # let k: PartTable = [[(0, 0), (2, 0), (0, 2)]].into_iter().collect();
    /// # let bbox = IntRect::new(0, 2, 0, 2);
    /// assert_eq!(difference_parts(&k, bbox, &k, bbox)?.bbox(), IntRect::new(-2, 2, -2, 2));
    /// # Ok::<(), Error>(())
    /// ```
    #[must_use]
    pub fn bbox(&self) -> IntRect {
        self.bbox
    }

    /// Where the place (x, y) lies by these contours. Strictly inside one is left of each of its
    /// edges; inside is on or left of each, and within the corners' least and greatest x and y; an
    /// empty contour covers nothing. Contours are taken to go once round a convex area, as those of
    /// meshes' parts do: a place inside one that is not convex may be told apart. Each is asked
    /// alone: a place on an edge that two of them share is strictly inside neither.
    ///
    /// Of the differences of two meshes' parts, split or not, this is how the meshes lie: the right
    /// one, moved by (x, y), overlaps the left one, touches it, or is apart from it: proved.
    ///
    /// ```
    /// use bezinkwolu::{difference_parts, Error, IntRect, PartTable, Placement};
    /// let square: PartTable = [[(0, 0), (4, 0), (4, 4), (0, 4)]].into_iter().collect();
    /// let bbox = IntRect::new(0, 4, 0, 4);
    /// let pairs = difference_parts(&square, bbox, &square, bbox)?;
    /// assert_eq!(pairs.placement(3, 3)?, Placement::Overlapping);
    /// assert_eq!(pairs.placement(4, 1)?, Placement::Touching);
    /// assert_eq!(pairs.placement(5, 0)?, Placement::Apart);
    /// # Ok::<(), Error>(())
    /// ```
    ///
    /// # Errors
    /// [`Error::RANGE`] where x or y is not strictly between −2^30 and 2^30.
    pub fn placement(&self, x: i32, y: i32) -> Result<Placement, Error> {
        let told = ffi::placement(&self.contours, x, y);
        Error::told(told.fault)?;
        Ok(Placement::told(told.placement))
    }
}

impl Default for PairTable {
    fn default() -> Self {
        Self::new()
    }
}

impl<'a> IntoIterator for &'a PairTable {
    type Item = (usize, usize, Contour<'a>);
    type IntoIter = Pairs<'a>;

    fn into_iter(self) -> Pairs<'a> {
        self.iter()
    }
}

/// The pairs of a [`PairTable`]: left part, right part, contour.
///
/// ```
/// use bezinkwolu::PairTable;
/// assert!(PairTable::new().iter().next().is_none());
/// ```
#[derive(Debug, Clone)]
#[must_use = "it hands out nothing until it is asked"]
pub struct Pairs<'a> {
    contours: Contours<'a>,
    right: usize,
    // the pair that comes next
    i: usize,
    j: usize,
}

impl<'a> Iterator for Pairs<'a> {
    type Item = (usize, usize, Contour<'a>);

    fn next(&mut self) -> Option<Self::Item> {
        let contour = self.contours.next()?;
        let pair = (self.i, self.j, contour);
        self.j += 1;
        if self.j == self.right {
            self.i += 1;
            self.j = 0;
        }
        Some(pair)
    }

    fn size_hint(&self) -> (usize, Option<usize>) {
        self.contours.size_hint()
    }
}

impl ExactSizeIterator for Pairs<'_> {}

impl FusedIterator for Pairs<'_> {}

type Operand<'a> = (&'a PartTable, IntRect);

fn all_pairs_into(difference: bool, lhs: Operand, rhs: Operand, pairs: &mut PairTable) -> Result<(), Error> {
    pairs.bbox = ffi::all_pairs(difference, lhs, rhs, &mut pairs.contours)?;
    pairs.right = rhs.0.len();
    Ok(())
}

fn all_pairs(difference: bool, lhs: Operand, rhs: Operand) -> Result<PairTable, Error> {
    let mut bbox = IntRect::new(0, 0, 0, 0);
    let contours = PartTable::filled(|contours| {
        bbox = ffi::all_pairs(difference, lhs, rhs, contours)?;
        Ok(())
    })?;
    Ok(PairTable {
        contours,
        right: rhs.0.len(),
        bbox,
    })
}

/// The sum of each left part and each right part, as iTriangle's `sum_parts` makes them before its
/// union. Bounds are those of the original source, which no corner may be outside of. Where both
/// parts go once round a convex area the contour is strictly convex, counter-clockwise, and their
/// exact sum.
///
/// ```
/// use bezinkwolu::{sum_parts, Error, IntRect, PartTable};
/// let k: PartTable = [[(0, 0), (2, 0), (0, 2)]].into_iter().collect();
/// let point: PartTable = [[(5, 5)]].into_iter().collect();
/// let sums = sum_parts(&point, IntRect::new(5, 5, 5, 5), &k, IntRect::new(0, 2, 0, 2))?;
/// assert_eq!(format!("{:?}", sums.contour(0, 0).unwrap()), "[(5, 5), (7, 5), (5, 7)]");
/// # Ok::<(), Error>(())
/// ```
///
/// # Errors
/// The first that holds of [`Error::RULES`], [`Error::RANGE`], [`Error::BOUNDS`] and
/// [`Error::WINDING`], each over the left operand and then the right one; then [`Error::RESULT`],
/// [`Error::EMPTY`].
pub fn sum_parts(lhs: &PartTable, lhs_bbox: IntRect, rhs: &PartTable, rhs_bbox: IntRect) -> Result<PairTable, Error> {
    all_pairs(false, (lhs, lhs_bbox), (rhs, rhs_bbox))
}

/// The same, into a table whose memory is used again; its contours go. Where the operands are
/// refused it stays as it was.
///
/// ```
/// use bezinkwolu::{sum_parts, sum_parts_into, Error, IntRect, PairTable, PartTable};
/// let k: PartTable = [[(0, 0), (2, 0), (0, 2)]].into_iter().collect();
/// let bbox = IntRect::new(0, 2, 0, 2);
/// let mut sums = PairTable::new();
/// sum_parts_into(&k, bbox, &k, bbox, &mut sums)?;
/// assert_eq!(sums, sum_parts(&k, bbox, &k, bbox)?);
/// assert_eq!(sum_parts_into(&PartTable::new(), bbox, &k, bbox, &mut sums), Err(Error::EMPTY));
/// assert_eq!(sums.iter().len(), 1);
/// # Ok::<(), Error>(())
/// ```
///
/// # Errors
/// Those of [`sum_parts`].
pub fn sum_parts_into(lhs: &PartTable, lhs_bbox: IntRect, rhs: &PartTable, rhs_bbox: IntRect, pairs: &mut PairTable) -> Result<(), Error> {
    all_pairs_into(false, (lhs, lhs_bbox), (rhs, rhs_bbox), pairs)
}

/// The same of each left part and each right part turned through the origin: {a − b}, as
/// iTriangle's `difference_parts`.
///
/// ```
/// use bezinkwolu::{difference_parts, Error, IntRect, PartTable};
/// let k: PartTable = [[(0, 0), (2, 0), (0, 2)]].into_iter().collect();
/// let bbox = IntRect::new(0, 2, 0, 2);
/// let pairs = difference_parts(&k, bbox, &k, bbox)?;
/// assert_eq!(
///     format!("{:?}", pairs.contour(0, 0).unwrap()),
///     "[(0, -2), (2, -2), (2, 0), (0, 2), (-2, 2), (-2, 0)]"
/// );
/// # Ok::<(), Error>(())
/// ```
///
/// # Errors
/// Those of [`sum_parts`].
pub fn difference_parts(lhs: &PartTable, lhs_bbox: IntRect, rhs: &PartTable, rhs_bbox: IntRect) -> Result<PairTable, Error> {
    all_pairs(true, (lhs, lhs_bbox), (rhs, rhs_bbox))
}

/// The same, into a table whose memory is used again, as [`sum_parts_into`] does.
///
/// ```
/// use bezinkwolu::{difference_parts, difference_parts_into, Error, IntRect, PairTable, PartTable};
/// let k: PartTable = [[(0, 0), (2, 0), (0, 2)]].into_iter().collect();
/// let bbox = IntRect::new(0, 2, 0, 2);
/// let mut pairs = PairTable::new();
/// difference_parts_into(&k, bbox, &k, bbox, &mut pairs)?;
/// assert_eq!(pairs, difference_parts(&k, bbox, &k, bbox)?);
/// # Ok::<(), Error>(())
/// ```
///
/// # Errors
/// Those of [`sum_parts`].
pub fn difference_parts_into(lhs: &PartTable, lhs_bbox: IntRect, rhs: &PartTable, rhs_bbox: IntRect, pairs: &mut PairTable) -> Result<(), Error> {
    all_pairs_into(true, (lhs, lhs_bbox), (rhs, rhs_bbox), pairs)
}
