//! Meshes and their parts.

use crate::{ffi, Error, IntPoint, PartTable};
use alloc::vec::Vec;
use core::iter::FusedIterator;

/// No neighbour: iTriangle's `NIL_INDEX`.
///
/// ```
/// assert_eq!(bezinkwolu::NIL_INDEX, usize::MAX);
/// ```
pub const NIL_INDEX: usize = usize::MAX;

/// A triangle of a mesh: its vertices, counter-clockwise, and for each the number of the triangle
/// across from it, or [`NIL_INDEX`].
///
/// ```
/// use bezinkwolu::{IntTriangle, NIL_INDEX};
/// let triangle = IntTriangle::from(([(0, 0), (4, 0), (0, 4)], [NIL_INDEX; 3]));
/// assert_eq!(triangle.vertices[1].x, 4);
/// ```
#[derive(Debug, Clone, Copy, PartialEq, Eq, Hash)]
pub struct IntTriangle {
    /// The vertices.
    pub vertices: [IntPoint; 3],
    /// Neighbour i lies across from vertex i.
    pub neighbors: [usize; 3],
}

impl<P: Into<IntPoint>> From<([P; 3], [usize; 3])> for IntTriangle {
    fn from((vertices, neighbors): ([P; 3], [usize; 3])) -> Self {
        Self {
            vertices: vertices.map(Into::into),
            neighbors,
        }
    }
}

/// How a part with more corners than the limit is split.
///
/// ```
/// use bezinkwolu::ConvexSplitStrategy;
/// assert_eq!(ConvexSplitStrategy::default(), ConvexSplitStrategy::EarClipping);
/// ```
#[derive(Debug, Default, Clone, Copy, PartialEq, Eq, Hash)]
pub enum ConvexSplitStrategy {
    /// Each part starts at the last corner of the one before; the clipped corners are passed over.
    /// As few parts as can be, of balanced sizes.
    #[default]
    EarClipping,
    /// Each part starts with the contour's first corner. As few parts as can be, of balanced sizes.
    Fan,
    /// About the area centroid, rounded to whole numbers; as a fan where that is not strictly
    /// inside.
    Centroid,
}

impl ConvexSplitStrategy {
    /// The number that the archive takes.
    fn number(self) -> u32 {
        match self {
            Self::EarClipping => 0,
            Self::Fan => 1,
            Self::Centroid => 2,
        }
    }
}

/// A triangle mesh, such as iTriangle's Delaunay triangulation; any mesh is taken, and one that has
/// a fault is refused when it is used.
///
/// It is collected from triangles, or from tuples of three points and three neighbours.
///
/// ```
/// use bezinkwolu::{IntDelaunay, NIL_INDEX};
/// let mesh: IntDelaunay = [([(0, 0), (2, 0), (0, 2)], [NIL_INDEX; 3])].into_iter().collect();
/// assert_eq!(mesh.len(), 1);
/// ```
#[derive(Debug, Clone, PartialEq, Eq, Default)]
pub struct IntDelaunay {
    rows: Vec<ffi::Row>,
}

/// Stands for a neighbour that 32 bits cannot hold: no mesh is so large, so it is refused as any
/// other that is not there.
const FAR: u32 = u32::MAX - 1;

fn row(triangle: IntTriangle) -> ffi::Row {
    let [a, b, c] = triangle.vertices;
    let [i, j, k] = triangle.neighbors.map(|n| match n {
        NIL_INDEX => u32::MAX,
        n => u32::try_from(n).unwrap_or(FAR).min(FAR),
    });
    [a.x, a.y, b.x, b.y, c.x, c.y, i as i32, j as i32, k as i32]
}

/// The triangle that a row was made of; a neighbour past 32 bits comes back as one that is in no
/// mesh either.
fn triangle(row: &ffi::Row) -> IntTriangle {
    let [ax, ay, bx, by, cx, cy, i, j, k] = *row;
    IntTriangle {
        vertices: [IntPoint::new(ax, ay), IntPoint::new(bx, by), IntPoint::new(cx, cy)],
        neighbors: [i, j, k].map(|n| match n as u32 {
            u32::MAX => NIL_INDEX,
            n => n as usize,
        }),
    }
}

impl<T: Into<IntTriangle>> FromIterator<T> for IntDelaunay {
    fn from_iter<I: IntoIterator<Item = T>>(triangles: I) -> Self {
        Self {
            rows: triangles.into_iter().map(|t| row(t.into())).collect(),
        }
    }
}

impl<T: Into<IntTriangle>> Extend<T> for IntDelaunay {
    fn extend<I: IntoIterator<Item = T>>(&mut self, triangles: I) {
        self.rows.extend(triangles.into_iter().map(|t| row(t.into())));
    }
}

impl IntDelaunay {
    /// How many triangles there are.
    ///
    /// ```
    /// assert_eq!(bezinkwolu::IntDelaunay::default().len(), 0);
    /// ```
    #[must_use]
    pub fn len(&self) -> usize {
        self.rows.len()
    }

    /// Whether there are none.
    ///
    /// ```
    /// assert!(bezinkwolu::IntDelaunay::default().is_empty());
    /// ```
    #[must_use]
    pub fn is_empty(&self) -> bool {
        self.rows.is_empty()
    }

    /// Triangle i, as it was given; none where i is past the mesh.
    ///
    /// ```
    /// use bezinkwolu::{IntDelaunay, IntPoint, NIL_INDEX};
    /// let mesh: IntDelaunay = [([(0, 0), (2, 0), (0, 2)], [NIL_INDEX; 3])].into_iter().collect();
    /// assert_eq!(mesh.triangle(0).map(|t| t.vertices[1]), Some(IntPoint::new(2, 0)));
    /// assert!(mesh.triangle(1).is_none());
    /// ```
    #[must_use]
    pub fn triangle(&self, i: usize) -> Option<IntTriangle> {
        self.rows.get(i).map(triangle)
    }

    /// The triangles in order.
    ///
    /// ```
    /// use bezinkwolu::{IntDelaunay, NIL_INDEX};
    /// let mesh: IntDelaunay = [([(0, 0), (2, 0), (0, 2)], [NIL_INDEX; 3])].into_iter().collect();
    /// assert_eq!(mesh.iter().collect::<IntDelaunay>(), mesh);
    /// ```
    pub fn iter(&self) -> Triangles<'_> {
        Triangles { rows: self.rows.iter() }
    }

    /// The mesh's first fault, where it has one. The calls below check the same first.
    ///
    /// ```
    /// use bezinkwolu::{Error, IntDelaunay, NIL_INDEX};
    /// let stray: IntDelaunay = [([(0, 0), (4, 0), (0, 4)], [7, NIL_INDEX, NIL_INDEX])].into_iter().collect();
    /// assert_eq!(stray.check(), Err(Error::STRAY));
    /// assert_eq!(IntDelaunay::default().check(), Ok(()));
    /// ```
    ///
    /// # Errors
    /// The first that holds of [`Error::TRIANGLES`], [`Error::RANGE`], [`Error::STRAY`],
    /// [`Error::NAMING`], [`Error::EDGE`], [`Error::FLAT`] and [`Error::TOTAL`].
    pub fn check(&self) -> Result<(), Error> {
        Error::told(ffi::mesh_fault(&self.rows))
    }

    /// Joins the triangles into convex parts, strictly convex and counter-clockwise: each triangle
    /// is taken into exactly one.
    ///
    /// ```
    /// use bezinkwolu::{Error, IntDelaunay, IntPoint, NIL_INDEX};
    /// let square: IntDelaunay = [
    ///     ([(0, 0), (4, 0), (4, 4)], [NIL_INDEX, 1, NIL_INDEX]),
    ///     ([(0, 0), (4, 4), (0, 4)], [NIL_INDEX, NIL_INDEX, 0]),
    /// ]
    /// .into_iter()
    /// .collect();
    /// let parts = square.to_convex_polygons()?;
    /// assert_eq!(parts.len(), 1);
    /// let corners: Vec<IntPoint> = parts.iter().flatten().collect();
    /// assert_eq!(corners, [(0, 4), (0, 0), (4, 0), (4, 4)].map(IntPoint::from));
    /// # Ok::<(), Error>(())
    /// ```
    ///
    /// # Errors
    /// Those of [`Self::check`].
    pub fn to_convex_polygons(&self) -> Result<PartTable, Error> {
        PartTable::filled(|parts| self.to_convex_polygons_into(parts))
    }

    /// The same, into a table whose memory is used again; its contours go. Where the mesh is
    /// refused the table stays as it was.
    ///
    /// ```
    /// use bezinkwolu::{Error, IntDelaunay, PartTable, NIL_INDEX};
    /// let mesh: IntDelaunay = [([(0, 0), (2, 0), (0, 2)], [NIL_INDEX; 3])].into_iter().collect();
    /// let mut parts = PartTable::new();
    /// mesh.to_convex_polygons_into(&mut parts)?;
    /// assert_eq!(parts, mesh.to_convex_polygons()?);
    /// # Ok::<(), Error>(())
    /// ```
    ///
    /// # Errors
    /// Those of [`Self::check`].
    pub fn to_convex_polygons_into(&self, parts: &mut PartTable) -> Result<(), Error> {
        ffi::to_convex_polygons(&self.rows, parts)
    }

    /// Joins, and splits each part of more than `max_vertices.max(3)` corners by `strategy`.
    ///
    /// ```
    /// use bezinkwolu::{ConvexSplitStrategy, Error, IntDelaunay, IntPoint, NIL_INDEX};
    /// # let square: IntDelaunay = [
    /// #     ([(0, 0), (4, 0), (4, 4)], [NIL_INDEX, 1, NIL_INDEX]),
    /// #     ([(0, 0), (4, 4), (0, 4)], [NIL_INDEX, NIL_INDEX, 0]),
    /// # ]
    /// # .into_iter()
    /// # .collect();
    /// let parts = square.to_convex_polygons_with_max_vertices(3, ConvexSplitStrategy::Fan)?;
    /// let second: Vec<IntPoint> = parts.contour(1).into_iter().flatten().collect();
    /// assert_eq!(second, [(0, 4), (4, 0), (4, 4)].map(IntPoint::from));
    /// # Ok::<(), Error>(())
    /// ```
    ///
    /// # Errors
    /// Those of [`Self::check`].
    pub fn to_convex_polygons_with_max_vertices(&self, max_vertices: usize, strategy: ConvexSplitStrategy) -> Result<PartTable, Error> {
        PartTable::filled(|parts| self.to_convex_polygons_with_max_vertices_into(max_vertices, strategy, parts))
    }

    /// The same, into a table whose memory is used again; its contours go. Where the mesh is
    /// refused the table stays as it was.
    ///
    /// ```
    /// use bezinkwolu::{ConvexSplitStrategy, Error, IntDelaunay, PartTable, NIL_INDEX};
    /// let mesh: IntDelaunay = [([(0, 0), (2, 0), (0, 2)], [NIL_INDEX; 3])].into_iter().collect();
    /// let mut parts = PartTable::new();
    /// mesh.to_convex_polygons_with_max_vertices_into(4, ConvexSplitStrategy::Fan, &mut parts)?;
    /// assert_eq!(parts.len(), 1);
    /// # Ok::<(), Error>(())
    /// ```
    ///
    /// # Errors
    /// Those of [`Self::check`].
    pub fn to_convex_polygons_with_max_vertices_into(&self, max_vertices: usize, strategy: ConvexSplitStrategy, parts: &mut PartTable) -> Result<(), Error> {
        // a limit past 32 bits splits as little as the largest of them: no contour is so long
        let limit = u32::try_from(max_vertices).unwrap_or(u32::MAX);
        ffi::to_convex_polygons_with_max_vertices(&self.rows, limit, strategy.number(), parts)
    }
}

impl<'a> IntoIterator for &'a IntDelaunay {
    type Item = IntTriangle;
    type IntoIter = Triangles<'a>;

    fn into_iter(self) -> Triangles<'a> {
        self.iter()
    }
}

/// The triangles of an [`IntDelaunay`], from either end.
///
/// ```
/// use bezinkwolu::{IntDelaunay, NIL_INDEX};
/// let mesh: IntDelaunay = [([(0, 0), (2, 0), (0, 2)], [NIL_INDEX; 3])].into_iter().collect();
/// assert_eq!(mesh.iter().len(), 1);
/// ```
#[derive(Debug, Clone)]
#[must_use = "it hands out nothing until it is asked"]
pub struct Triangles<'a> {
    rows: core::slice::Iter<'a, ffi::Row>,
}

impl Iterator for Triangles<'_> {
    type Item = IntTriangle;

    fn next(&mut self) -> Option<IntTriangle> {
        self.rows.next().map(triangle)
    }

    fn size_hint(&self) -> (usize, Option<usize>) {
        self.rows.size_hint()
    }
}

impl DoubleEndedIterator for Triangles<'_> {
    fn next_back(&mut self) -> Option<IntTriangle> {
        self.rows.next_back().map(triangle)
    }
}

impl ExactSizeIterator for Triangles<'_> {}

impl FusedIterator for Triangles<'_> {}
