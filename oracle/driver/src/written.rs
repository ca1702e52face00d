//! The memory about lent starts and corners, and what a call that writes parts
//! leaves there.

use crate::lent::Lent;
use crate::told::Counts;
use judge::room::{self, Room, Size};
use judge::{Contour, Fault};

/// The counts, and all of the memory about the lent buffers.
#[derive(Debug, PartialEq)]
pub struct Written {
    pub counts: Counts,
    pub starts: Lent<u32>,
    pub corners: Lent<i32>,
}

impl Written {
    /// What stands before a call.
    pub fn before(lent: Room) -> Self {
        Self {
            counts: Counts {
                fault: 0,
                parts: 0,
                corners: 0,
            },
            starts: Lent::places(lent.starts),
            corners: Lent::places(lent.numbers),
        }
    }

    /// What a call leaves that is refused, or else has these parts.
    pub fn after(lent: Room, parts: Result<Vec<Contour>, Fault>) -> Self {
        match parts {
            Err(fault) => Self::refused(lent, fault),
            Ok(parts) => match room::fault(Size::of(&parts), lent) {
                0 => Self::of(lent, &parts),
                fault => Self::refused(lent, fault),
            },
        }
    }

    fn refused(lent: Room, fault: Fault) -> Self {
        let mut written = Self::before(lent);
        written.counts.fault = fault;
        written
    }

    /// The parts on the front of the lent memory, which has room for them.
    fn of(lent: Room, parts: &[Contour]) -> Self {
        let mut written = Self::before(lent);
        let size = Size::of(parts);
        written.counts.parts = size.parts as u32;
        written.counts.corners = size.corners as u32;
        let starts = written.starts.slice_mut();
        let corners = written.corners.slice_mut();
        let mut corner = 0;
        starts[0] = 0;
        for (part, contour) in parts.iter().enumerate() {
            for &(x, y) in contour {
                corners[2 * corner..2 * corner + 2].copy_from_slice(&[x, y]);
                corner += 1;
            }
            starts[part + 1] = corner as u32;
        }
        written
    }

    /// What a function that is right leaves in lent starts and corners.
    #[cfg(test)]
    pub fn copied(&self, starts: &mut [u32], corners: &mut [i32]) -> Counts {
        starts.copy_from_slice(self.starts.slice());
        corners.copy_from_slice(self.corners.slice());
        self.counts
    }
}
