//! The calls that are timed beside an earlier build's: of this build, and of the earlier one where
//! `BENCH_BEFORE` names its archive (oracle/peers/archive).

use crate::lent::Handed;
use crate::mesh::Row;
use crate::pairs::{Bounds, HandedOperand, ToldPairs};
use crate::placement::ToldPlacement;
use crate::table::HandedTable;
use crate::told::Counts;
use judge::Point;

/// A build's functions, as they are exported.
#[derive(Clone, Copy)]
pub struct Build {
    join: Join,
    split: Split,
    sums: Sums,
    place: Place,
}

type Join = unsafe extern "C" fn(*const Row, usize, *mut u32, usize, *mut i32, usize) -> Counts;

type Split =
    unsafe extern "C" fn(*const Row, usize, u32, u32, *mut u32, usize, *mut i32, usize) -> Counts;

type Sums = unsafe extern "C" fn(
    *const u32,
    usize,
    *const i32,
    usize,
    Bounds,
    *const u32,
    usize,
    *const i32,
    usize,
    Bounds,
    *mut u32,
    usize,
    *mut i32,
    usize,
) -> ToldPairs;

type Place = unsafe extern "C" fn(*const u32, usize, *const i32, usize, i32, i32) -> ToldPlacement;

/// A build by the names of its four functions.
macro_rules! build {
    ($join:literal, $split:literal, $sums:literal, $place:literal) => {{
        extern "C" {
            #[link_name = $join]
            fn join(
                a: *const Row,
                n: usize,
                s: *mut u32,
                k: usize,
                c: *mut i32,
                m: usize,
            ) -> Counts;
            #[link_name = $split]
            fn split(
                a: *const Row,
                n: usize,
                limit: u32,
                split: u32,
                s: *mut u32,
                k: usize,
                c: *mut i32,
                m: usize,
            ) -> Counts;
            #[link_name = $sums]
            fn sums(
                ls: *const u32,
                lk: usize,
                lc: *const i32,
                lm: usize,
                lb: Bounds,
                rs: *const u32,
                rk: usize,
                rc: *const i32,
                rm: usize,
                rb: Bounds,
                s: *mut u32,
                k: usize,
                c: *mut i32,
                m: usize,
            ) -> ToldPairs;
            #[link_name = $place]
            fn place(
                s: *const u32,
                k: usize,
                c: *const i32,
                m: usize,
                x: i32,
                y: i32,
            ) -> ToldPlacement;
        }
        Build {
            join,
            split,
            sums,
            place,
        }
    }};
}

pub fn this() -> Build {
    build!(
        "bezinkwolu_to_convex_polygons",
        "bezinkwolu_to_convex_polygons_with_max_vertices",
        "bezinkwolu_sum_parts",
        "bezinkwolu_placement"
    )
}

/// The earlier build, where one is linked.
pub fn earlier() -> Option<Build> {
    #[cfg(before)]
    return Some(build!(
        "before_bezinkwolu_to_convex_polygons",
        "before_bezinkwolu_to_convex_polygons_with_max_vertices",
        "before_bezinkwolu_sum_parts",
        "before_bezinkwolu_placement"
    ));
    #[cfg(not(before))]
    None
}

// Safe, all four: a function reads and writes no more than what is handed to it.
impl Build {
    pub fn to_convex_polygons(
        &self,
        mesh: Handed<Row>,
        starts: Handed<u32>,
        corners: Handed<i32>,
    ) -> Counts {
        unsafe {
            (self.join)(
                mesh.at,
                mesh.length,
                starts.at,
                starts.length,
                corners.at,
                corners.length,
            )
        }
    }

    pub fn with_max_vertices(
        &self,
        mesh: Handed<Row>,
        [limit, split]: [u32; 2],
        starts: Handed<u32>,
        corners: Handed<i32>,
    ) -> Counts {
        unsafe {
            (self.split)(
                mesh.at,
                mesh.length,
                limit,
                split,
                starts.at,
                starts.length,
                corners.at,
                corners.length,
            )
        }
    }

    pub fn sum_parts(
        &self,
        [left, right]: [HandedOperand; 2],
        starts: Handed<u32>,
        corners: Handed<i32>,
    ) -> ToldPairs {
        unsafe {
            (self.sums)(
                left.table.starts.at,
                left.table.starts.length,
                left.table.corners.at,
                left.table.corners.length,
                left.bounds,
                right.table.starts.at,
                right.table.starts.length,
                right.table.corners.at,
                right.table.corners.length,
                right.bounds,
                starts.at,
                starts.length,
                corners.at,
                corners.length,
            )
        }
    }

    pub fn placement(&self, table: HandedTable, (x, y): Point) -> ToldPlacement {
        let HandedTable { starts, corners } = table;
        unsafe { (self.place)(starts.at, starts.length, corners.at, corners.length, x, y) }
    }
}
