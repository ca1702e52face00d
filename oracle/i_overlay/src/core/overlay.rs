//! The overlay, which in the stand-in unites nothing: it hands back the paths
//! that it was given, in their order, each as one shape of one contour. A path
//! that emits no point is kept too, as an empty contour, so that the answers of
//! `sum_parts` and `difference_parts` can be compared in position.

use crate::core::fill_rule::FillRule;
use crate::core::integer::OverlayInt;
use crate::core::overlay_rule::OverlayRule;
use crate::core::solver::Solver;
use crate::i_float::int::number::uint::UIntNumber;
use crate::i_float::int::point::IntPoint;
use crate::i_shape::int::shape::{IntContour, IntShapes};
use crate::i_shape::source::int::resource::IntShapeResource;

#[derive(Debug, Clone, Copy, PartialEq, Eq)]
pub enum ShapeType {
    Subject,
}

#[derive(Debug, Clone, Copy)]
pub struct IntOverlayOptions<U: UIntNumber> {
    pub preserve_input_collinear: bool,
    pub preserve_output_collinear: bool,
    pub min_output_area: U,
}

impl<U: UIntNumber> Default for IntOverlayOptions<U> {
    fn default() -> Self {
        Self {
            preserve_input_collinear: false,
            preserve_output_collinear: false,
            min_output_area: U::ZERO,
        }
    }
}

impl<U: UIntNumber> IntOverlayOptions<U> {
    pub fn keep_output_points() -> Self {
        Self {
            preserve_output_collinear: true,
            ..Default::default()
        }
    }
}

pub struct Overlay<I: OverlayInt> {
    pub options: IntOverlayOptions<I::WideUInt>,
    paths: Vec<IntContour<I>>,
}

impl<I: OverlayInt> Overlay<I> {
    pub fn new_custom(
        capacity: usize,
        options: IntOverlayOptions<I::WideUInt>,
        _solver: Solver,
    ) -> Self {
        Self {
            options,
            paths: Vec::with_capacity(capacity),
        }
    }

    pub fn clear(&mut self) {
        self.paths.clear();
    }

    pub fn add_path_iter<P>(&mut self, path: P, _shape_type: ShapeType)
    where
        P: Iterator<Item = IntPoint<I>>,
    {
        self.paths.push(path.collect());
    }

    /// The paths as given.
    pub fn overlay(&mut self, _rule: OverlayRule, _fill_rule: FillRule) -> IntShapes<I> {
        self.paths.drain(..).map(|path| vec![path]).collect()
    }

    /// Only `IntMinkowskiSolver::prepare` calls this, and `prepare` is outside
    /// the port: there is nothing to answer.
    pub fn simplify_source<R>(&mut self, _source: &R, _fill_rule: FillRule) -> IntShapes<I>
    where
        R: IntShapeResource<I> + ?Sized,
    {
        panic!("the stand-in has no simplify_source: `prepare` is outside the port")
    }
}
