//! What the boundary's functions hand back: a fault number, and a value or counts
//! that are 0 where there is a fault.

/// Of a function of the plane.
#[repr(C)]
#[derive(Debug, Clone, Copy, PartialEq, Eq)]
pub struct Told {
    pub fault: u32,
    pub value: i64,
}

impl Told {
    pub fn refused(fault: u32) -> Self {
        Self { fault, value: 0 }
    }

    pub fn accepted(value: i64) -> Self {
        Self { fault: 0, value }
    }
}

/// Of a call that writes parts to lent starts and corners.
#[repr(C)]
#[derive(Debug, Clone, Copy, PartialEq, Eq)]
pub struct Counts {
    pub fault: u32,
    pub parts: u32,
    pub corners: u32,
}
