//! OURS, in place of the given `int/triangulator.rs`: triangulation is outside
//! the port. `int/minkowski.rs` needs the overlay that a triangulator holds.

use crate::advanced::delaunay::IntDelaunay;
use crate::int::triangulation::IndexType;
use crate::int::validation::Validation;
use core::marker::PhantomData;
use i_overlay::core::integer::OverlayInt;
use i_overlay::core::overlay::Overlay;
use i_overlay::core::solver::Solver;
use i_overlay::i_shape::int::shape::IntShapes;

pub struct IntTriangulator<I: OverlayInt, N> {
    pub overlay: Overlay<I>,
    index: PhantomData<N>,
}

impl<I: OverlayInt, N: IndexType> IntTriangulator<I, N> {
    pub fn new(max_points_count: usize, validation: Validation<I>, solver: Solver) -> Self {
        Self {
            overlay: Overlay::new_custom(max_points_count, validation.options, solver),
            index: PhantomData,
        }
    }

    /// Only `IntMinkowskiSolver::prepare` calls this, and `prepare` is outside
    /// the port: there is nothing to answer.
    pub fn uncheck_delaunay_shapes_into(
        &mut self,
        _shapes: &IntShapes<I>,
        _delaunay: &mut IntDelaunay<I>,
    ) {
        panic!("the stand-in has no triangulation: `prepare` is outside the port")
    }
}
