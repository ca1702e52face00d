//! The judge of faults, written from document 01 alone: independent of the
//! Rattle crates (`specs/`, `src/`) and of the given Rust, which has no refusal
//! but 10; of paths, from document 02. Sums and products that could leave 64 bits
//! are formed in 128.
//!
//! Every judging function answers the number of the first fault in document
//! 01's order, or 0. Each kind is tried over the whole input before the next.
//!
//! - `mesh`: 1, 2, 3, 4, 5, 6, 11
//! - `file`: the mesh file, 13 and 1, then the mesh's own
//! - `table`: the part table's rules and limits (7), its coordinates (2)
//! - `stored`: the stored form, read and written
//! - `shown`: the part shown, 7 and 12
//! - `pairs`: 7, 2, 9, 8, 10, 20
//! - `job`: a pair job, 13 and 7, then those of pairs; its text
//! - `walk`: a walk begun, stepped, its point, and a pair's step
//! - `placement`: a place by the contours of a pair result, 7 and 2; by two meshes
//!   (not document 01's: from what the call promises)
//! - `measure`: doubled areas and bounds of a contour, a part and a table, 7, 2, 12 and 11
//!   (likewise)
//! - `path`: a path from a drawing program, in millimetres, to corners on the grid: 14, 7, 2
//!   and 21 (document 02); `exact`: the numbers of f64 in whole numbers
//! - `triangles`: whether two triangles meet, and whether they overlap
//! - `room`: 22 and 21, once the answer's size is known
//! - `round`: once round a convex area above zero; strictly convex
//! - `listing`: the text of the area program
//! - `two_files`: two mesh files one behind the other, the left's numbers and then the
//!   right's; the bounds of a mesh
//! - `shard`: the pair job of some of the left parts, 13 and 7
//! - `programs`: what the programs parts, contours, placed and pairshard write (from what
//!   is said of them, not document 01's)

pub mod exact;
pub mod file;
pub mod job;
pub mod limits;
pub mod listing;
pub mod measure;
pub mod mesh;
pub mod pairs;
pub mod path;
pub mod placement;
pub mod programs;
pub mod room;
pub mod round;
pub mod shard;
pub mod shown;
pub mod stored;
pub mod table;
pub mod triangles;
pub mod two_files;
pub mod walk;

/// A fault's number; 0 is none.
pub type Fault = u32;

/// A point as (x, y), and a contour as a list of them.
pub type Point = (i32, i32);
pub type Contour = Vec<Point>;

/// A little-endian word at the front, and the bytes after it.
pub(crate) fn word(bytes: &[u8]) -> Option<(u32, &[u8])> {
    let (word, rest) = bytes.split_first_chunk::<4>()?;
    Some((u32::from_le_bytes(*word), rest))
}

/// The first of the kinds whose test fails the input. The tests run in order and
/// none runs after the first that answers yes.
pub(crate) fn first(kinds: &[(Fault, &dyn Fn() -> bool)]) -> Fault {
    kinds
        .iter()
        .find(|(_, given)| given())
        .map_or(0, |&(fault, _)| fault)
}
