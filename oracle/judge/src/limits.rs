//! Document 01's limits, each by its name.

/// Coordinates and bounds lie strictly between −2^30 and 2^30.
pub const COORDINATE: i32 = 1 << 30;

/// Triangles of a mesh (fault 1).
pub const TRIANGLES: usize = 1_024;

/// Parts of a table, corners of a table, corners of a contour (fault 7).
pub const PARTS: usize = 2_048;
pub const CORNERS: usize = 8_192;
pub const CONTOUR: usize = 1_026;

/// How far from zero a coordinate of a path's point may lie, in millimetres, and the greatest
/// step count a millimetre, as a power of two (fault 14).
pub const MILLIMETRES: i64 = 1_048_576;
pub const STEPS: usize = 10;

/// No neighbour.
pub const NONE: u32 = u32::MAX;

/// Whether a coordinate or bound is in range (fault 2 where not).
pub fn in_range(value: i32) -> bool {
    -COORDINATE < value && value < COORDINATE
}

/// Whether both coordinates of a point are in range.
pub fn point_in_range((x, y): crate::Point) -> bool {
    in_range(x) && in_range(y)
}
