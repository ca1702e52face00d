//! Parts, split parts and pair contours: the judge's refusal, or else the given
//! Rust's answer.

use i_triangle::advanced::convex::ConvexSplitStrategy;
use i_triangle::int::expose::{self, Record};
use judge::file::{MeshFile, Split};
use judge::mesh::{self, Triangle};
use judge::pairs::{self, Operand, Operation};
use judge::{Contour, Fault};

/// How parts are cut: not at all, or past a limit.
#[derive(Debug, Clone, Copy, PartialEq, Eq)]
pub enum Cut {
    None,
    Past(u32, Split),
}

/// The parts of a mesh.
pub fn parts(mesh: &[Triangle], cut: Cut) -> Result<Vec<Contour>, Fault> {
    match mesh::fault(mesh) {
        0 => {}
        fault => return Err(fault),
    }
    let records: Vec<Record> = mesh.iter().map(|t| (t.points, t.neighbours)).collect();
    Ok(match cut {
        Cut::None => expose::parts(&records),
        Cut::Past(limit, split) => expose::split_parts(&records, limit as usize, strategy(split)),
    })
}

/// The parts that a mesh file asks for.
pub fn parts_of_file(file: &MeshFile) -> Result<Vec<Contour>, Fault> {
    parts(&file.mesh, Cut::Past(file.limit, file.split))
}

/// The contours of all pairs.
pub fn pair_contours(
    operation: Operation,
    left: &Operand,
    right: &Operand,
) -> Result<Vec<Contour>, Fault> {
    match pairs::fault(operation, left, right) {
        0 => {}
        fault => return Err(fault),
    }
    let asked = match operation {
        Operation::Sum => expose::Operation::Sum,
        Operation::Difference => expose::Operation::Difference,
    };
    expose::pairs(
        asked,
        &left.table.contours(),
        left.bounds,
        &right.table.contours(),
        right.bounds,
    )
    .map_err(|_| 10)
}

fn strategy(split: Split) -> ConvexSplitStrategy {
    match split {
        Split::Ear => ConvexSplitStrategy::EarClipping,
        Split::Fan => ConvexSplitStrategy::Fan,
        Split::Centroid => ConvexSplitStrategy::Centroid,
    }
}
