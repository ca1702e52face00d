//! Points, vectors and bounds, with iTriangle's names.

/// A point of the plane.
///
/// ```
/// use bezinkwolu::IntPoint;
/// assert_eq!(IntPoint::from((1, 2)), IntPoint { x: 1, y: 2 });
/// assert_eq!(IntPoint::new(1, 2), IntPoint::from([1, 2]));
/// assert_eq!(<(i32, i32)>::from(IntPoint::new(1, 2)), (1, 2));
/// ```
#[derive(Debug, Clone, Copy, PartialEq, Eq, PartialOrd, Ord, Hash, Default)]
pub struct IntPoint {
    /// To the right.
    pub x: i32,
    /// Up.
    pub y: i32,
}

impl IntPoint {
    /// A point by its coordinates.
    ///
    /// ```
    /// assert_eq!(bezinkwolu::IntPoint::new(3, 4).y, 4);
    /// ```
    #[must_use]
    pub const fn new(x: i32, y: i32) -> Self {
        Self { x, y }
    }
}

impl From<(i32, i32)> for IntPoint {
    fn from((x, y): (i32, i32)) -> Self {
        Self { x, y }
    }
}

impl From<[i32; 2]> for IntPoint {
    fn from([x, y]: [i32; 2]) -> Self {
        Self { x, y }
    }
}

impl From<IntPoint> for (i32, i32) {
    fn from(point: IntPoint) -> Self {
        (point.x, point.y)
    }
}

/// An edge, from one point to another.
///
/// ```
/// use bezinkwolu::IntVector;
/// let edge = IntVector { x: 2, y: 0 };
/// assert_eq!((edge.x, edge.y), (2, 0));
/// ```
#[derive(Debug, Clone, Copy, PartialEq, Eq, Hash, Default)]
pub struct IntVector {
    /// To the right.
    pub x: i64,
    /// Up.
    pub y: i64,
}

/// Bounds: least and greatest x and y.
///
/// ```
/// use bezinkwolu::IntRect;
/// let bbox = IntRect::new(0, 2, 0, 3);
/// assert_eq!((bbox.min_x, bbox.max_x, bbox.min_y, bbox.max_y), (0, 2, 0, 3));
/// ```
#[repr(C)]
#[derive(Debug, Clone, Copy, PartialEq, Eq, Hash)]
pub struct IntRect {
    /// Least x.
    pub min_x: i32,
    /// Greatest x.
    pub max_x: i32,
    /// Least y.
    pub min_y: i32,
    /// Greatest y.
    pub max_y: i32,
}

impl IntRect {
    /// Bounds by their numbers, in the order in which iTriangle has them.
    ///
    /// ```
    /// assert_eq!(bezinkwolu::IntRect::new(-1, 2, 0, 3).max_x, 2);
    /// ```
    #[must_use]
    pub const fn new(min_x: i32, max_x: i32, min_y: i32, max_y: i32) -> Self {
        Self { min_x, max_x, min_y, max_y }
    }

    /// The least bounds that hold the points; none where there are none.
    ///
    /// ```
    /// use bezinkwolu::IntRect;
    /// assert_eq!(IntRect::with_iter([(0, 4), (3, -1)]), Some(IntRect::new(0, 3, -1, 4)));
    /// assert_eq!(IntRect::with_iter([(0, 0); 0]), None);
    /// ```
    pub fn with_iter<P: Into<IntPoint>>(points: impl IntoIterator<Item = P>) -> Option<Self> {
        let mut points = points.into_iter().map(Into::into);
        let first = points.next()?;
        let one = Self::new(first.x, first.x, first.y, first.y);
        Some(points.fold(one, |b, p| Self {
            min_x: b.min_x.min(p.x),
            max_x: b.max_x.max(p.x),
            min_y: b.min_y.min(p.y),
            max_y: b.max_y.max(p.y),
        }))
    }
}
