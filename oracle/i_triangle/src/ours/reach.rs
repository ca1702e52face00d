//! OURS: the private items of the given `int/minkowski_sum.rs`, made public.
//!
//! The file is included a second time, unchanged, so that what is added below
//! stands in one module with `angle_cmp`, `Walk` and `ConvexSum` and may call
//! them. `int/minkowski.rs` uses the first, ordinary copy.

include!("../int/minkowski_sum.rs");

/// A point as (x, y).
pub type Point = (i32, i32);

/// A vector as (x, y), of 64 bits.
pub type Vector = (i64, i64);

/// `angle_cmp`.
pub fn angle_cmp_of(a: Vector, b: Vector) -> Ordering {
    angle_cmp::<i32>(IntVector::new(a.0, a.1), IntVector::new(b.0, b.1))
}

/// A `Walk` without its contour.
#[derive(Debug, Clone, Copy, PartialEq, Eq)]
pub struct Place {
    pub index: usize,
    pub reverse: bool,
    pub remaining: usize,
    pub reflected: bool,
    pub segment: Option<(usize, usize)>,
}

/// `Walk::new`; none on an empty contour.
pub fn begin(contour: &[Point], reflected: bool) -> Option<Place> {
    Walk::new(&points(contour), reflected).map(|walk| place(&walk))
}

/// `Walk::point`.
pub fn point_at(contour: &[Point], at: Place) -> Point {
    let points = points(contour);
    let p = walk(&points, at).point();
    (p.x, p.y)
}

/// `Walk::edge`.
pub fn edge_at(contour: &[Point], at: Place) -> Vector {
    let points = points(contour);
    let e = walk(&points, at).edge();
    (e.x, e.y)
}

/// `Walk::advance`, of a walk with a step left.
pub fn advanced(contour: &[Point], at: Place) -> Place {
    let points = points(contour);
    let mut walk = walk(&points, at);
    walk.advance();
    place(&walk)
}

/// One `next` of a `ConvexSum`: the point emitted, if any, and both places
/// after it.
pub fn pair_next(
    a: &[Point],
    at_a: Place,
    b: &[Point],
    at_b: Place,
) -> (Option<Point>, Place, Place) {
    let (points_a, points_b) = (points(a), points(b));
    let mut sum = ConvexSum {
        a: walk(&points_a, at_a),
        b: walk(&points_b, at_b),
    };
    let emitted = sum.next().map(|p| (p.x, p.y));
    (emitted, place(&sum.a), place(&sum.b))
}

fn points(contour: &[Point]) -> Vec<IntPoint<i32>> {
    contour.iter().map(|&(x, y)| IntPoint::new(x, y)).collect()
}

fn walk(points: &[IntPoint<i32>], at: Place) -> Walk<'_, i32> {
    Walk {
        points,
        index: at.index,
        reverse: at.reverse,
        remaining: at.remaining,
        reflected: at.reflected,
        segment: at.segment,
    }
}

fn place(walk: &Walk<'_, i32>) -> Place {
    Place {
        index: walk.index,
        reverse: walk.reverse,
        remaining: walk.remaining,
        reflected: walk.reflected,
        segment: walk.segment,
    }
}
