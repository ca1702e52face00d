//! The faults of a lent buffer that is too small, 22 before 21, once the answer's
//! size is known.

use crate::{first, Fault};

/// What an answer has: parts (or contours) and corners.
#[derive(Debug, Clone, Copy, PartialEq, Eq)]
pub struct Size {
    pub parts: usize,
    pub corners: usize,
}

/// What was lent: places for starts, and places for numbers, two a corner.
#[derive(Debug, Clone, Copy, PartialEq, Eq)]
pub struct Room {
    pub starts: usize,
    pub numbers: usize,
}

impl Size {
    pub fn of(contours: &[crate::Contour]) -> Self {
        Self {
            parts: contours.len(),
            corners: contours.iter().map(Vec::len).sum(),
        }
    }

    /// One more start than parts.
    pub fn starts(self) -> usize {
        self.parts + 1
    }

    pub fn numbers(self) -> usize {
        2 * self.corners
    }
}

pub fn fault(needed: Size, lent: Room) -> Fault {
    first(&[
        (22, &|| lent.starts < needed.starts()),
        (21, &|| lent.numbers < needed.numbers()),
    ])
}
