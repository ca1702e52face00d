//! Inputs for the runs beside the Rust, all from one seeded generator. The tests
//! of each module ask the judge whether it gives what it promises.
//!
//! - `rng`: the generator; `coordinates`: numbers of every size and at the limits
//! - `plane`: four points, for crosses, areas and directions
//! - `contours`: small ones exhaustively; convex, dressed, in line, crossing,
//!   of zero winding, round more than once, around each limit
//! - `meshes`: small ones exhaustively; polygons, grids, strips, fans, copies,
//!   ones that overlap or wind round a vertex more than once
//! - `mesh_damage`: copies of a good mesh with one fault or two
//! - `operands`: part tables with bounds; `pair_damage`: with one fault or two
//! - `tables`: part tables, small ones exhaustively, each rule broken, the limits
//! - `table_calls`: what is asked of the calls on tables, and the memory lent
//! - `placements`: what is asked of `placement`, of contours and of two meshes
//! - `measures`: what is asked of the calls that measure
//! - `paths`: what is asked of `import_path`: paths, frames and room, good and damaged
//! - `stored`: stored tables and mesh files, good and damaged
//! - `two_files`: two mesh files one behind the other; `shards`: part numbers and a pair
//!   job, for the programs that read them
//! - `places`: walks as a caller may make them
//! - `walk_calls`: what is asked of the calls on walks
//! - `rooms`: room lent for an answer
//! - `text`: inputs as text, for people

pub mod contours;
pub mod coordinates;
pub mod measures;
pub mod mesh_damage;
pub mod meshes;
pub mod operands;
pub mod pair_damage;
pub mod paths;
pub mod placements;
pub mod places;
pub mod plane;
pub mod rng;
pub mod rooms;
pub mod shards;
pub mod stored;
pub mod table_calls;
pub mod tables;
pub mod text;
pub mod two_files;
pub mod walk_calls;

/// The number that these faults together give, kinds tried in this order.
#[cfg(test)]
fn first_of(order: &[judge::Fault], faults: &[judge::Fault]) -> judge::Fault {
    let first = order.iter().find(|f| faults.contains(f));
    *first.expect("one of them")
}
