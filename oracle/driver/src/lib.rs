//! The driver of the runs beside the Rust.
//!
//! - `entry`: what an entry point is, and how one is run: every input asked of
//!   both sides, counted, and a difference made as small as possible
//! - `lent`: memory lent to a call, with places on either side that are not; `told`:
//!   what the boundary's functions hand back; `written`: lent starts and corners after
//!   a call
//! - `plane`: `cross_product`, `area_two`, `angle_cmp`
//! - `mesh`: `mesh_fault`, `to_convex_polygons`
//! - `split`: `to_convex_polygons_with_max_vertices`
//! - `table`: `read_table`, `write_table`, `show_part`; `table_simpler`: their
//!   simpler inputs
//! - `walk`: one walk begun, its point, edge and advance, a walk stepped; a pair
//!   begun, stepped, and stepped to its end
//! - `pairs`: `sum_parts`, `difference_parts`
//! - `placement`: a place by contours, and by two meshes
//! - `measure`: `contour_area_two`, `part_area_two`, `table_area_two`, `table_bounds`
//! - `path`: `import_path`
//! - `listing`: the text that the area program prints for a file
//! - `programs`: the programs parts, contours, placed and pairshard, each run as a process
//! - `sample`: what a stored sample is, and `SAMPLES`, all of them: `plane_sample`,
//!   `table_sample`, `mesh_sample`, `split_sample`, `pairs_sample`, `path_sample`,
//!   `program_samples`
//! - `boundary`: the C functions of the Rattle archive and the list of entry
//!   points, where it is linked
//! - `builds`: the calls of this build and of an earlier one, for the benchmark
//!
//! An entry point joins with a module that implements `EntryPoint` and one line
//! in the list of `boundary`.

pub mod entry;
pub mod lent;
pub mod listing;
pub mod measure;
pub mod mesh;
mod mesh_sample;
pub mod pairs;
pub mod pairs_sample;
pub mod path;
mod path_sample;
pub mod placement;
pub mod plane;
mod plane_sample;
mod program_samples;
pub mod programs;
pub mod sample;
pub mod split;
mod split_sample;
pub mod table;
mod table_sample;
mod table_simpler;
pub mod told;
pub mod walk;
pub mod written;

#[cfg(feature = "linked")]
pub mod boundary;
#[cfg(feature = "linked")]
pub mod builds;
