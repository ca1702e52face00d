//! Coordinates: of every size, at the limits, and beyond them.

use crate::rng::Rng;
use judge::Point;

/// The greatest coordinate in range, 2^30 − 1.
pub const EDGE: i32 = (1 << 30) - 1;

/// In range, of every size, the limits among them.
pub fn any(rng: &mut Rng) -> i32 {
    if rng.once_in(8) {
        return rng.pick(&[EDGE, -EDGE, EDGE - 1, 1 - EDGE, 1 << 29, -(1 << 29), 0]);
    }
    let size = (1i32 << rng.below(31)) - 1;
    rng.between(-size, size)
}

/// Out of range: mostly one beyond.
pub fn beyond(rng: &mut Rng) -> i32 {
    rng.pick(&[
        EDGE + 1,
        -EDGE - 1,
        EDGE + 1,
        -EDGE - 1,
        EDGE + 2,
        i32::MAX,
        i32::MIN,
    ])
}

/// Within `reach` of zero.
pub fn within(rng: &mut Rng, reach: i32) -> i32 {
    rng.between(-reach, reach)
}

pub fn point(rng: &mut Rng) -> Point {
    (any(rng), any(rng))
}

pub fn point_within(rng: &mut Rng, reach: i32) -> Point {
    (within(rng, reach), within(rng, reach))
}

/// How far coordinates may go: small, middling, and up to the limit.
pub fn reach(rng: &mut Rng) -> i32 {
    rng.pick(&[2, 5, 20, 1_000, 1 << 20, 1 << 28, EDGE])
}
