//! Part tables, their contours and the stored form.

use crate::{ffi, Error, IntPoint, IntRect};
use alloc::{vec, vec::Vec};
use core::fmt;
use core::iter::FusedIterator;

/// Contours in a row, each a list of corners. It owns its memory, and how that is laid out is its
/// own affair.
///
/// Joining and splitting answer one; contours of one's own are collected into one, and judged when
/// it is used: at most 2,048 contours, 8,192 corners and 1,026 in one contour. A contour may be
/// empty.
///
/// ```
/// use bezinkwolu::PartTable;
/// let table: PartTable = [vec![(0, 0), (2, 0), (0, 2)], vec![(5, 5)]].into_iter().collect();
/// assert_eq!((table.len(), table.corner_count()), (2, 4));
/// ```
#[derive(Clone, PartialEq, Eq, Hash)]
pub struct PartTable {
    // There is one start more than contours: contour k has the corners from the k-th up to the
    // next. A corner is two numbers.
    starts: Vec<u32>,
    numbers: Vec<i32>,
}

impl PartTable {
    /// A table without contours.
    ///
    /// ```
    /// assert!(bezinkwolu::PartTable::new().is_empty());
    /// ```
    #[must_use]
    pub fn new() -> Self {
        Self {
            starts: vec![0],
            numbers: Vec::new(),
        }
    }

    /// A table that a call fills, in no more memory than it takes.
    pub(crate) fn filled(fill: impl FnOnce(&mut Self) -> Result<(), Error>) -> Result<Self, Error> {
        let mut table = Self {
            starts: Vec::new(),
            numbers: Vec::new(),
        };
        fill(&mut table)?;
        table.starts.shrink_to_fit();
        table.numbers.shrink_to_fit();
        Ok(table)
    }

    pub(crate) fn lists(&self) -> (&[u32], &[i32]) {
        (&self.starts, &self.numbers)
    }

    pub(crate) fn lists_mut(&mut self) -> (&mut Vec<u32>, &mut Vec<i32>) {
        (&mut self.starts, &mut self.numbers)
    }

    /// Adds a contour at the end.
    ///
    /// ```
    /// # use bezinkwolu::PartTable;
    /// let mut table = PartTable::new();
    /// table.push([(0, 0), (2, 0), (0, 2)]);
    /// assert_eq!(table.len(), 1);
    /// ```
    pub fn push<P: Into<IntPoint>>(&mut self, contour: impl IntoIterator<Item = P>) {
        for point in contour {
            let IntPoint { x, y } = point.into();
            self.numbers.extend([x, y]);
        }
        // past 32 bits the table is past its limits too, and refused with 7
        self.starts.push(u32::try_from(self.numbers.len() / 2).unwrap_or(u32::MAX));
    }

    /// How many contours there are.
    ///
    /// ```
    /// assert_eq!(bezinkwolu::PartTable::new().len(), 0);
    /// ```
    #[must_use]
    pub fn len(&self) -> usize {
        self.starts.len().saturating_sub(1)
    }

    /// Whether there are none.
    ///
    /// ```
    /// assert!(bezinkwolu::PartTable::default().is_empty());
    /// ```
    #[must_use]
    pub fn is_empty(&self) -> bool {
        self.len() == 0
    }

    /// How many corners all contours have.
    ///
    /// ```
    /// # use bezinkwolu::PartTable;
    /// let table: PartTable = [[(0, 0), (2, 0), (0, 2)]].into_iter().collect();
    /// assert_eq!(table.corner_count(), 3);
    /// ```
    #[must_use]
    pub fn corner_count(&self) -> usize {
        self.numbers.len() / 2
    }

    /// Contour k, in this table's own memory; none where k is past the table.
    ///
    /// ```
    /// # use bezinkwolu::{IntPoint, PartTable};
    /// let table: PartTable = [vec![(0, 0)], vec![(1, 2), (3, 4)]].into_iter().collect();
    /// let second = table.contour(1).unwrap();
    /// assert_eq!(second.get(0), Some(IntPoint::new(1, 2)));
    /// assert!(table.contour(2).is_none());
    /// ```
    #[must_use]
    pub fn contour(&self, k: usize) -> Option<Contour<'_>> {
        let from = *self.starts.get(k)? as usize;
        let to = *self.starts.get(k.checked_add(1)?)? as usize;
        self.part(2 * from, 2 * (to - from))
    }

    fn part(&self, offset: usize, length: usize) -> Option<Contour<'_>> {
        let numbers = self.numbers.get(offset..offset.checked_add(length)?)?;
        Some(Contour { numbers })
    }

    /// The contours in order.
    ///
    /// ```
    /// # use bezinkwolu::PartTable;
    /// let table: PartTable = [vec![(0, 0)], vec![(1, 2), (3, 4)]].into_iter().collect();
    /// let lengths: Vec<usize> = table.iter().map(|contour| contour.len()).collect();
    /// assert_eq!(lengths, [1, 2]);
    /// assert_eq!(table.iter().rev().next().map(|last| last.len()), Some(2));
    /// ```
    pub fn iter(&self) -> Contours<'_> {
        Contours {
            table: self,
            from: 0,
            to: self.len(),
        }
    }

    /// The doubled areas of all contours, added: exact, below 0 for those that run clockwise. The
    /// limits of a part table do not bind, so that this can be asked of
    /// [`PairTable::contours`](crate::PairTable::contours) too, where each contour is counted by
    /// itself, also where they overlap.
    ///
    /// ```
    /// # use bezinkwolu::{Error, PartTable};
    /// let table: PartTable = [[(0, 4), (0, 0), (4, 0)], [(0, 4), (4, 0), (10, -2)]].into_iter().collect();
    /// assert_eq!(table.area_two()?, 32);
    /// assert_eq!(table.contour(1).unwrap().area_two()?, 16);
    /// # Ok::<(), Error>(())
    /// ```
    ///
    /// # Errors
    /// [`Error::RANGE`]; [`Error::TOTAL`] where the sum leaves an `i64`; [`Error::RULES`] where
    /// there are more than 4,294,967,295 corners.
    pub fn area_two(&self) -> Result<i64, Error> {
        ffi::table_area_two(self)
    }

    /// The least and greatest x and y of all corners, 0 where there are none: with them the table
    /// is an operand of [`sum_parts`](crate::sum_parts). The limits of a part table do not bind.
    ///
    /// ```
    /// # use bezinkwolu::{sum_parts, Error, IntRect, PartTable};
    /// let table: PartTable = [[(0, 4), (0, 0), (4, 0)], [(0, 4), (4, 0), (10, -2)]].into_iter().collect();
    /// assert_eq!(table.bbox()?, IntRect::new(0, 10, -2, 4));
    /// assert_eq!(PartTable::new().bbox()?, IntRect::new(0, 0, 0, 0));
    /// let sums = sum_parts(&table, table.bbox()?, &table, table.bbox()?)?;
    /// assert_eq!(sums.contours().bbox()?, sums.bbox());
    /// # Ok::<(), Error>(())
    /// ```
    ///
    /// # Errors
    /// [`Error::RANGE`]; [`Error::RULES`] where there are more than 4,294,967,295 corners.
    pub fn bbox(&self) -> Result<IntRect, Error> {
        ffi::table_bounds(self)
    }

    /// The stored form: part count, corner count, starts and corners, each 32 bits, little-endian.
    ///
    /// ```
    /// # use bezinkwolu::{Error, PartTable};
    /// let table: PartTable = [[(0, 4), (0, 0), (4, 0)]].into_iter().collect();
    /// let bytes = table.to_bytes()?;
    /// assert_eq!(bytes.len(), 40);
    /// assert_eq!(PartTable::from_bytes(&bytes)?, table);
    /// # Ok::<(), Error>(())
    /// ```
    ///
    /// # Errors
    /// The first that holds of [`Error::RULES`] and [`Error::RANGE`].
    pub fn to_bytes(&self) -> Result<Vec<u8>, Error> {
        ffi::write_table(self)
    }

    /// The table of a stored form.
    ///
    /// ```
    /// # use bezinkwolu::{Error, PartTable};
    /// assert_eq!(PartTable::from_bytes(&[0; 12])?, PartTable::new());
    /// assert_eq!(PartTable::from_bytes(b"no table"), Err(Error::RULES));
    /// # Ok::<(), Error>(())
    /// ```
    ///
    /// # Errors
    /// The first that holds of [`Error::RULES`], also for another length than the counts say, and
    /// [`Error::RANGE`].
    pub fn from_bytes(bytes: &[u8]) -> Result<Self, Error> {
        Self::filled(|table| ffi::read_table(bytes, table))
    }
}

impl Default for PartTable {
    fn default() -> Self {
        Self::new()
    }
}

impl fmt::Debug for PartTable {
    fn fmt(&self, f: &mut fmt::Formatter<'_>) -> fmt::Result {
        f.debug_list().entries(self).finish()
    }
}

impl<C: IntoIterator<Item = P>, P: Into<IntPoint>> FromIterator<C> for PartTable {
    fn from_iter<I: IntoIterator<Item = C>>(contours: I) -> Self {
        let mut table = Self::new();
        table.extend(contours);
        table
    }
}

impl<C: IntoIterator<Item = P>, P: Into<IntPoint>> Extend<C> for PartTable {
    fn extend<I: IntoIterator<Item = C>>(&mut self, contours: I) {
        for contour in contours {
            self.push(contour);
        }
    }
}

impl<'a> IntoIterator for &'a PartTable {
    type Item = Contour<'a>;
    type IntoIter = Contours<'a>;

    fn into_iter(self) -> Contours<'a> {
        self.iter()
    }
}

/// One contour of a [`PartTable`], in the table's own memory.
///
/// ```
/// # use bezinkwolu::{Contour, IntPoint, PartTable};
/// let table: PartTable = [[(0, 0), (2, 0), (0, 2)]].into_iter().collect();
/// let contour: Contour = table.contour(0).unwrap();
/// let points: Vec<IntPoint> = contour.into_iter().collect();
/// assert_eq!(points[2], IntPoint::new(0, 2));
/// ```
#[derive(Clone, Copy, PartialEq, Eq, Hash)]
pub struct Contour<'a> {
    numbers: &'a [i32],
}

impl<'a> Contour<'a> {
    pub(crate) fn numbers(self) -> &'a [i32] {
        self.numbers
    }

    /// How many corners it has.
    ///
    /// ```
    /// # use bezinkwolu::PartTable;
    /// # let table: PartTable = [[(0, 0), (2, 0), (0, 2)]].into_iter().collect();
    /// assert_eq!(table.contour(0).unwrap().len(), 3);
    /// ```
    #[must_use]
    pub fn len(self) -> usize {
        self.numbers.len() / 2
    }

    /// Whether it has none.
    ///
    /// ```
    /// # use bezinkwolu::PartTable;
    /// # let table: PartTable = [[(0, 0), (2, 0), (0, 2)]].into_iter().collect();
    /// assert!(!table.contour(0).unwrap().is_empty());
    /// ```
    #[must_use]
    pub fn is_empty(self) -> bool {
        self.numbers.is_empty()
    }

    /// Corner i; none where i is past the contour.
    ///
    /// ```
    /// # use bezinkwolu::{IntPoint, PartTable};
    /// # let table: PartTable = [[(0, 0), (2, 0), (0, 2)]].into_iter().collect();
    /// let contour = table.contour(0).unwrap();
    /// assert_eq!(contour.get(1), Some(IntPoint::new(2, 0)));
    /// assert_eq!(contour.get(3), None);
    /// ```
    #[must_use]
    pub fn get(self, i: usize) -> Option<IntPoint> {
        let x = i.checked_mul(2)?;
        match self.numbers.get(x..)? {
            [x, y, ..] => Some(IntPoint::new(*x, *y)),
            _ => None,
        }
    }

    /// Its doubled area, as of iTriangle's `Triangle::area_two`: exact, above 0 where it runs
    /// counter-clockwise, below 0 where it runs clockwise. Where it crosses itself or goes round
    /// more than once, it is what the shoelace formula gives.
    ///
    /// ```
    /// # use bezinkwolu::{Error, PartTable};
    /// let table: PartTable = [vec![(0, 0), (2, 0), (0, 2)], vec![(0, 0), (0, 2), (2, 0)], vec![(7, 7)]].into_iter().collect();
    /// let areas: Result<Vec<i64>, Error> = table.iter().map(|contour| contour.area_two()).collect();
    /// assert_eq!(areas?, [4, -4, 0]);
    /// # Ok::<(), Error>(())
    /// ```
    ///
    /// # Errors
    /// [`Error::RANGE`]; [`Error::TOTAL`] where it leaves an `i64`, as only a contour that goes
    /// round more than once can.
    pub fn area_two(self) -> Result<i64, Error> {
        ffi::contour_area_two(self.numbers)
    }

    /// The corners in order.
    ///
    /// ```
    /// # use bezinkwolu::PartTable;
    /// # let table: PartTable = [[(0, 0), (2, 0), (0, 2)]].into_iter().collect();
    /// let xs: Vec<i32> = table.contour(0).unwrap().iter().map(|corner| corner.x).collect();
    /// assert_eq!(xs, [0, 2, 0]);
    /// ```
    pub fn iter(self) -> Corners<'a> {
        Corners {
            numbers: self.numbers.chunks_exact(2),
        }
    }
}

impl fmt::Debug for Contour<'_> {
    fn fmt(&self, f: &mut fmt::Formatter<'_>) -> fmt::Result {
        f.debug_list().entries(self.iter().map(<(i32, i32)>::from)).finish()
    }
}

impl<'a> IntoIterator for Contour<'a> {
    type Item = IntPoint;
    type IntoIter = Corners<'a>;

    fn into_iter(self) -> Corners<'a> {
        self.iter()
    }
}

/// The contours of a [`PartTable`], from either end.
///
/// ```
/// # use bezinkwolu::PartTable;
/// let table: PartTable = [vec![(0, 0)], vec![]].into_iter().collect();
/// let mut contours = table.iter();
/// assert_eq!(contours.len(), 2);
/// assert!(contours.next_back().unwrap().is_empty());
/// ```
#[derive(Debug, Clone)]
#[must_use = "it hands out nothing until it is asked"]
pub struct Contours<'a> {
    table: &'a PartTable,
    from: usize,
    to: usize,
}

impl<'a> Iterator for Contours<'a> {
    type Item = Contour<'a>;

    fn next(&mut self) -> Option<Contour<'a>> {
        if self.from == self.to {
            return None;
        }
        self.from += 1;
        self.table.contour(self.from - 1)
    }

    fn size_hint(&self) -> (usize, Option<usize>) {
        let left = self.to - self.from;
        (left, Some(left))
    }
}

impl DoubleEndedIterator for Contours<'_> {
    fn next_back(&mut self) -> Option<Self::Item> {
        if self.from == self.to {
            return None;
        }
        self.to -= 1;
        self.table.contour(self.to)
    }
}

impl ExactSizeIterator for Contours<'_> {}

impl FusedIterator for Contours<'_> {}

/// The corners of a [`Contour`], from either end.
///
/// ```
/// # use bezinkwolu::{IntPoint, PartTable};
/// let table: PartTable = [[(0, 0), (2, 0), (0, 2)]].into_iter().collect();
/// let mut corners = table.contour(0).unwrap().iter();
/// assert_eq!(corners.next_back(), Some(IntPoint::new(0, 2)));
/// assert_eq!(corners.len(), 2);
/// ```
#[derive(Debug, Clone)]
#[must_use = "it hands out nothing until it is asked"]
pub struct Corners<'a> {
    numbers: core::slice::ChunksExact<'a, i32>,
}

fn corner(numbers: &[i32]) -> Option<IntPoint> {
    match numbers {
        [x, y] => Some(IntPoint::new(*x, *y)),
        _ => None,
    }
}

impl Iterator for Corners<'_> {
    type Item = IntPoint;

    fn next(&mut self) -> Option<IntPoint> {
        self.numbers.next().and_then(corner)
    }

    fn size_hint(&self) -> (usize, Option<usize>) {
        self.numbers.size_hint()
    }
}

impl DoubleEndedIterator for Corners<'_> {
    fn next_back(&mut self) -> Option<IntPoint> {
        self.numbers.next_back().and_then(corner)
    }
}

impl ExactSizeIterator for Corners<'_> {}

impl FusedIterator for Corners<'_> {}

/// Which operand of a pair.
///
/// ```
/// use bezinkwolu::Side;
/// assert_ne!(Side::Left, Side::Right);
/// ```
#[derive(Debug, Clone, Copy, PartialEq, Eq, Hash)]
pub enum Side {
    /// The first.
    Left,
    /// The second.
    Right,
}

/// The nesting desk's question: part k of the left or the right operand, in that operand's own
/// memory. Both tables are judged, also the one not asked for; of a table that needs no judging,
/// [`PartTable::contour`] answers at once.
///
/// ```
/// use bezinkwolu::{show_part, Error, PartTable, Side};
/// let left: PartTable = [[(0, 0), (2, 0), (0, 2)]].into_iter().collect();
/// let right: PartTable = [[(7, 7)]].into_iter().collect();
/// assert_eq!(show_part(&left, &right, Side::Right, 0)?, right.contour(0).unwrap());
/// assert_eq!(show_part(&left, &right, Side::Left, 1), Err(Error::PART));
/// # Ok::<(), Error>(())
/// ```
///
/// # Errors
/// [`Error::RULES`] of either table, [`Error::PART`] where there is no part k.
pub fn show_part<'a>(lhs: &'a PartTable, rhs: &'a PartTable, side: Side, k: usize) -> Result<Contour<'a>, Error> {
    // a number past 32 bits is past any table, as the largest of them is
    let told = ffi::show_part(lhs, rhs, side == Side::Right, u32::try_from(k).unwrap_or(u32::MAX));
    Error::told(told.fault)?;
    let asked = match side {
        Side::Left => lhs,
        Side::Right => rhs,
    };
    asked.part(told.offset, told.length).ok_or(Error::PART)
}
