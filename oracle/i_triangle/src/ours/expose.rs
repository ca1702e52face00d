//! OURS: the given functions that the crate keeps to itself, made public over
//! plain points and lists. Nothing is computed here; each answer is the Rust's.

use crate::advanced::convex::ConvexSplitStrategy;
use crate::advanced::delaunay::IntDelaunay;
use crate::geom::centroid::polygon_centroid;
use crate::geom::point::IndexPoint;
use crate::geom::triangle::IntTriangle;
use crate::int::minkowski::{IntMinkowskiSolver, MinkowskiError};
use crate::int::minkowski_sum::ConvexSum;
use i_overlay::i_float::int::point::IntPoint;
use i_overlay::i_float::int::rect::IntRect;
use i_overlay::i_float::triangle::Triangle;
use i_overlay::i_shape::int::shape::IntShapes;

/// A point as (x, y), and a contour as a list of them.
pub type Point = (i32, i32);
pub type Contour = Vec<Point>;

/// A triangle's three points and three neighbours; none is `u32::MAX`.
pub type Record = ([Point; 3], [u32; 3]);

/// Least x, greatest x, least y, greatest y.
pub type Bounds = [i32; 4];

#[derive(Debug, Clone, Copy, PartialEq, Eq)]
pub enum Operation {
    Sum,
    Difference,
}

/// `to_convex_polygons`.
pub fn parts(mesh: &[Record]) -> Vec<Contour> {
    out(delaunay(mesh).to_convex_polygons())
}

/// A mesh in the Rust's own types, made once, so that a measurement of
/// `to_convex_polygons` or `to_convex_polygons_with_max_vertices` has neither the
/// mesh's making in it nor the answer's turning into plain lists.
pub struct Prepared(IntDelaunay<i32>);

/// Parts in the Rust's own types.
pub type Parts = Vec<Vec<IntPoint<i32>>>;

impl Prepared {
    pub fn of(mesh: &[Record]) -> Self {
        Self(delaunay(mesh))
    }

    /// The triangles as a caller of the Rust has them: points, and neighbours with
    /// `usize::MAX` for none.
    pub fn triangles(&self) -> impl Iterator<Item = ([Point; 3], [usize; 3])> + '_ {
        let taken =
            |t: &IntTriangle<i32>| (t.vertices.map(|v| (v.point.x, v.point.y)), t.neighbors);
        self.0.triangles.iter().map(taken)
    }

    pub fn parts(&self) -> Parts {
        self.0.to_convex_polygons()
    }

    pub fn split_parts(&self, limit: usize, strategy: ConvexSplitStrategy) -> Parts {
        self.0.to_convex_polygons_with_max_vertices(limit, strategy)
    }
}

/// `to_convex_polygons_with_max_vertices`.
pub fn split_parts(mesh: &[Record], limit: usize, strategy: ConvexSplitStrategy) -> Vec<Contour> {
    out(delaunay(mesh).to_convex_polygons_with_max_vertices(limit, strategy))
}

/// `polygon_centroid` seen from the contour's first corner, as
/// `append_centroid_parts` asks for it.
pub fn centroid(contour: &[Point]) -> Option<Point> {
    let points = points(contour);
    polygon_centroid(&points, *points.first()?).map(|p| (p.x, p.y))
}

/// `sum_parts` or `difference_parts`, with the stand-in overlay that hands the
/// paths back: one contour for each left part and, within it, each right part.
/// An empty contour gives no path (`ConvexSum::new` answers none), so its pairs
/// are filled in here as empty contours.
pub fn pairs(
    operation: Operation,
    left: &[Contour],
    left_bounds: Bounds,
    right: &[Contour],
    right_bounds: Bounds,
) -> Result<Vec<Contour>, MinkowskiError> {
    let mut solver = IntMinkowskiSolver::<i32>::default();
    let lhs: Vec<_> = left.iter().map(|c| points(c)).collect();
    let rhs: Vec<_> = right.iter().map(|c| points(c)).collect();
    let shapes = match operation {
        Operation::Sum => solver.sum_parts(&lhs, rect(left_bounds), &rhs, rect(right_bounds)),
        Operation::Difference => {
            solver.difference_parts(&lhs, rect(left_bounds), &rhs, rect(right_bounds))
        }
    }?;

    let mut paths = shapes.into_iter().flatten();
    let mut contours = Vec::with_capacity(left.len() * right.len());
    for a in left {
        for b in right {
            contours.push(if a.is_empty() || b.is_empty() {
                Vec::new()
            } else {
                plain(&paths.next().expect("a path for each pair of contours"))
            });
        }
    }
    assert!(paths.next().is_none(), "a path for each pair of contours");
    Ok(contours)
}

/// Two operands in the Rust's own types, made once, so that a measurement of all
/// pairs has neither their making in it nor the answer's turning into plain lists.
pub struct PreparedPairs {
    solver: IntMinkowskiSolver<i32>,
    left: (Parts, IntRect<i32>),
    right: (Parts, IntRect<i32>),
    drawn: Vec<IntPoint<i32>>,
}

impl PreparedPairs {
    pub fn of(left: &[Contour], lb: Bounds, right: &[Contour], rb: Bounds) -> Self {
        let side = |parts: &[Contour], bounds| -> (Parts, _) {
            (parts.iter().map(|c| points(c)).collect(), rect(bounds))
        };
        Self {
            solver: IntMinkowskiSolver::default(),
            left: side(left, lb),
            right: side(right, rb),
            drawn: Vec::new(),
        }
    }

    /// `sum_parts`, with the stand-in overlay, which keeps each path as a list.
    pub fn sum_parts(&mut self) -> Result<IntShapes<i32>, MinkowskiError> {
        let ((left, lb), (right, rb)) = (&self.left, &self.right);
        self.solver.sum_parts(left, *lb, right, *rb)
    }

    /// The pairs' walks alone, the loops of `sum_parts` without an overlay: drawn
    /// into one list, which is kept from one call to the next. Answers how many
    /// corners they have.
    pub fn draw(&mut self) -> usize {
        self.drawn.clear();
        for a in &self.left.0 {
            for b in &self.right.0 {
                if let Some(path) = ConvexSum::new(a, b) {
                    self.drawn.extend(path);
                }
            }
        }
        self.drawn.len()
    }
}

/// `ConvexSum::new` or `ConvexSum::difference`, drawn to its end.
pub fn one_pair(operation: Operation, a: &[Point], b: &[Point]) -> Option<Contour> {
    let (a, b) = (points(a), points(b));
    let sum = match operation {
        Operation::Sum => ConvexSum::new(&a, &b),
        Operation::Difference => ConvexSum::difference(&a, &b),
    }?;
    Some(sum.map(|p| (p.x, p.y)).collect())
}

/// `validate_bounds`.
pub fn validate_bounds(bounds: [i64; 4]) -> Result<(), MinkowskiError> {
    IntMinkowskiSolver::<i32>::validate_bounds(bounds)
}

/// `cross_product` of b − a and d − c (the stand-in's).
pub fn cross_product(a: Point, b: Point, c: Point, d: Point) -> i64 {
    (point(b) - point(a)).cross_product(point(d) - point(c))
}

/// `Triangle::area_two` (the stand-in's).
pub fn area_two(a: Point, b: Point, c: Point) -> i64 {
    Triangle::area_two(point(a), point(b), point(c))
}

fn delaunay(mesh: &[Record]) -> IntDelaunay<i32> {
    IntDelaunay {
        points: Vec::new(),
        triangles: mesh.iter().map(triangle).collect(),
    }
}

fn triangle((corners, neighbours): &Record) -> IntTriangle<i32> {
    IntTriangle {
        vertices: corners.map(|p| IndexPoint::new(0, point(p))),
        neighbors: neighbours.map(|n| match n {
            u32::MAX => usize::MAX,
            n => n as usize,
        }),
    }
}

fn rect([min_x, max_x, min_y, max_y]: Bounds) -> IntRect<i32> {
    IntRect::new(min_x, max_x, min_y, max_y)
}

fn point((x, y): Point) -> IntPoint<i32> {
    IntPoint::new(x, y)
}

fn points(contour: &[Point]) -> Vec<IntPoint<i32>> {
    contour.iter().map(|&p| point(p)).collect()
}

fn plain(contour: &[IntPoint<i32>]) -> Contour {
    contour.iter().map(|p| (p.x, p.y)).collect()
}

fn out(contours: Vec<Vec<IntPoint<i32>>>) -> Vec<Contour> {
    contours.iter().map(|c| plain(c)).collect()
}
