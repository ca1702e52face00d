//! Convex parts of whole-number triangle meshes, and their Minkowski sums and differences pair by
//! pair: iTriangle's `to_convex_polygons`, `to_convex_polygons_with_max_vertices`, `sum_parts` and
//! `difference_parts` with proved answers.
//!
//! What is called here is the archive `libbezinkwolu.a`, whose every function is proved to meet its
//! contract. Any input is taken: it is refused by a numbered [`Error`], or the answer is complete.
//! Nothing here panics on what it is given. Triangulation before, and union after, remain
//! iTriangle's. An outline of a drawing program, in millimetres, becomes whole-number corners by
//! [`import_path`].
//!
//! ```
//! use bezinkwolu::{sum_parts, Error, IntDelaunay, IntPoint, IntRect, NIL_INDEX};
//!
//! // Two triangles side by side that do not join: a dart.
//! let dart: IntDelaunay = [
//!     ([(0, 0), (4, 0), (0, 4)], [1, NIL_INDEX, NIL_INDEX]),
//!     ([(4, 0), (10, -2), (0, 4)], [NIL_INDEX, 0, NIL_INDEX]),
//! ]
//! .into_iter()
//! .collect();
//! let parts = dart.to_convex_polygons()?;
//! assert_eq!(parts.len(), 2);
//!
//! // Each part plus itself and plus the other.
//! let bbox = IntRect::new(0, 10, -2, 4);
//! let sums = sum_parts(&parts, bbox, &parts, bbox)?;
//! let first: Vec<IntPoint> = sums.contour(0, 0).into_iter().flatten().collect();
//! assert_eq!(first, [(0, 0), (8, 0), (0, 8)].map(IntPoint::from));
//! # Ok::<(), Error>(())
//! ```
//!
//! # In place of iTriangle's calls
//!
//! A mesh is taken from `i_triangle::advanced::delaunay::IntDelaunay` in one line, and contours are
//! handed to its overlay in another:
//!
//! ```text
//! let mesh: bezinkwolu::IntDelaunay =
//!     delaunay.triangles.iter().map(|t| (t.vertices.map(|v| (v.point.x, v.point.y)), t.neighbors)).collect();
//! for (_, _, contour) in &sums {
//!     overlay.add_path_iter(contour.iter().map(|p| IntPoint::new(p.x, p.y)), ShapeType::Subject);
//! }
//! ```
//!
//! | iTriangle | here |
//! |---|---|
//! | `IntDelaunay::to_convex_polygons` | [`IntDelaunay::to_convex_polygons`] |
//! | `IntDelaunay::to_convex_polygons_with_max_vertices` | [`IntDelaunay::to_convex_polygons_with_max_vertices`] |
//! | `ConvexSplitStrategy` | [`ConvexSplitStrategy`] |
//! | `Vec<IntContour>` | [`PartTable`], one allocation for all contours |
//! | `IntMinkowskiSolver::sum_parts`, `difference_parts` before the union | [`sum_parts`], [`difference_parts`] |
//! | `ConvexSum`, `Walk` | [`ConvexSum`], [`Walk`] |
//! | `area_two` of a triangle | [`Contour::area_two`], [`PartTable::area_two`] |
//! | `MinkowskiError::CoordinateOutOfRange` | [`Error::RESULT`] |

#![no_std]
#![forbid(unsafe_op_in_unsafe_fn)]
#![deny(unsafe_code)]
#![warn(missing_docs)]

extern crate alloc;
#[cfg(feature = "std")]
extern crate std;

mod error;
#[allow(unsafe_code)]
mod ffi;
mod mesh;
mod minkowski;
mod path;
mod point;
mod table;
mod walk;

pub use error::Error;
pub use mesh::{ConvexSplitStrategy, IntDelaunay, IntTriangle, Triangles, NIL_INDEX};
pub use minkowski::{difference_parts, difference_parts_into, sum_parts, sum_parts_into, PairTable, Pairs, Placement};
pub use path::{import_path, Frame, PathItem};
pub use point::{IntPoint, IntRect, IntVector};
pub use table::{show_part, Contour, Contours, Corners, PartTable, Side};
pub use walk::{ConvexSum, Walk};
