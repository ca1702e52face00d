//! A refusal.

use core::fmt;

/// Why a call refused its input: a number, and the sentence that belongs to it.
///
/// ```
/// use bezinkwolu::{Error, IntDelaunay, NIL_INDEX};
///
/// let flat: IntDelaunay = [([(0, 0), (2, 0), (4, 0)], [NIL_INDEX; 3])].into_iter().collect();
/// let error = flat.to_convex_polygons().unwrap_err();
/// assert_eq!(error, Error::FLAT);
/// assert_eq!(error.number(), 6);
/// assert_eq!(error.to_string(), "fault 6: a triangle's doubled area not above 0");
/// ```
#[derive(Clone, Copy, PartialEq, Eq, Hash)]
pub struct Error(u32);

/// Each fault that a call here can give.
///
/// ```
/// use bezinkwolu::Error;
/// assert_eq!(Error::RESULT.number(), 10);
/// ```
impl Error {
    /// More than 1,024 triangles.
    pub const TRIANGLES: Self = Self(1);
    /// A coordinate or bound not strictly between -2^30 and 2^30.
    pub const RANGE: Self = Self(2);
    /// A neighbour neither none nor in the mesh, or the triangle itself.
    pub const STRAY: Self = Self(3);
    /// A neighbour named twice, or not naming back exactly once.
    pub const NAMING: Self = Self(4);
    /// A shared edge whose ends differ or don't run oppositely.
    pub const EDGE: Self = Self(5);
    /// A triangle's doubled area not above 0.
    pub const FLAT: Self = Self(6);
    /// A part table, or a contour's length, against the rules or limits.
    pub const RULES: Self = Self(7);
    /// A winding's running total, as the walk forms it, leaves signed 64 bits.
    pub const WINDING: Self = Self(8);
    /// A least bound above a greatest, or a corner outside its bounds.
    pub const BOUNDS: Self = Self(9);
    /// A result bound not strictly between -2^30 and 2^30. iTriangle's `CoordinateOutOfRange`.
    pub const RESULT: Self = Self(10);
    /// Doubled areas of the mesh add up to more than 2^63-1, or a measured one leaves signed 64
    /// bits.
    pub const TOTAL: Self = Self(11);
    /// A part number past the table.
    pub const PART: Self = Self(12);
    /// A path's step count, number, point or order of items against the rules.
    pub const PATH: Self = Self(14);
    /// An operand without parts, or a walk begun on an empty contour.
    pub const EMPTY: Self = Self(20);

    /// The fault of a call's number; none for 0.
    pub(crate) fn told(number: u32) -> Result<(), Self> {
        match number {
            0 => Ok(()),
            number => Err(Self(number)),
        }
    }

    /// The fault's number.
    ///
    /// ```
    /// assert_eq!(bezinkwolu::Error::EMPTY.number(), 20);
    /// ```
    #[must_use]
    pub fn number(self) -> u32 {
        self.0
    }

    /// When the fault is given.
    ///
    /// ```
    /// assert_eq!(bezinkwolu::Error::PART.sentence(), "a part number past the table");
    /// ```
    #[must_use]
    pub fn sentence(self) -> &'static str {
        match self.0 {
            1 => "more than 1,024 triangles",
            2 => "a coordinate or bound not strictly between -2^30 and 2^30",
            3 => "a neighbour neither none nor in the mesh, or the triangle itself",
            4 => "a neighbour named twice, or not naming back exactly once",
            5 => "a shared edge whose ends differ or don't run oppositely",
            6 => "a triangle's doubled area not above 0",
            7 => "a part table, or a contour's length, against the rules or limits",
            8 => "a winding's running total, as the walk forms it, leaves signed 64 bits",
            9 => "a least bound above a greatest, or a corner outside its bounds",
            10 => "a result bound not strictly between -2^30 and 2^30",
            11 => "doubled areas of the mesh add up to more than 2^63-1, or a measured one leaves signed 64 bits",
            12 => "a part number past the table",
            13 => "a file or a pair job against its rules, or no such split",
            14 => "a path's step count, number, point or order of items against the rules",
            20 => "an operand without parts, or a walk begun on an empty contour",
            21 => "fewer places for corners, or for bytes, than the answer has",
            22 => "fewer places for starts than the answer has",
            23 => "a walk with no step left, or whose place or either segment end isn't a corner of its contour",
            _ => "a fault that this version has no sentence for",
        }
    }
}

impl fmt::Display for Error {
    fn fmt(&self, f: &mut fmt::Formatter<'_>) -> fmt::Result {
        write!(f, "fault {}: {}", self.0, self.sentence())
    }
}

impl fmt::Debug for Error {
    fn fmt(&self, f: &mut fmt::Formatter<'_>) -> fmt::Result {
        fmt::Display::fmt(self, f)
    }
}

#[cfg(feature = "std")]
impl std::error::Error for Error {}
