//! The C functions of the Rattle archive, and the list of entry points.

// linked for its archive: the functions below are that crate's own
use bezinkwolu as _;

use crate::entry::{run, Report};
use crate::lent::{Handed, Lent};
use crate::listing::{listing_beside, TEXT};
use crate::measure::{contour_area_two_beside, part_area_two_beside};
use crate::measure::{table_area_two_beside, table_bounds_beside, ToldBounds};
use crate::mesh::{mesh_fault_beside, to_convex_polygons_beside, Row};
use crate::pairs::{all_pairs_beside, Bounds, HandedOperand, ToldPairs};
use crate::path::{import_path_beside, HandedFrame, ToldCorners};
use crate::placement::{of_meshes_beside, placement_beside, ToldPlacement};
use crate::plane::{angle_cmp_beside, area_two_beside, cross_product_beside};
use crate::split::with_max_vertices_beside;
use crate::table::{read_table_beside, show_part_beside, write_table_beside};
use crate::table::{HandedTable, ToldLength, ToldPart};
use crate::told::{Counts, Told};
use crate::walk::{self, Places};
use crate::walk::{ToldEdge, ToldNext, ToldPair, ToldPlace, ToldPoint, ToldStep};
use inputs::plane::Four;
use inputs::walk_calls::Place;
use judge::pairs::Operation;
use judge::path::Item;
use judge::shown::Side;
use judge::Point;

mod archive {
    use super::{HandedFrame, Item, ToldBounds, ToldCorners};
    use super::{Bounds, Counts, Place, Places, Row, Told, ToldLength, ToldPairs, ToldPart};
    use super::{ToldEdge, ToldNext, ToldPair, ToldPlace, ToldPlacement, ToldPoint, ToldStep};
    use crate::listing::TEXT;

    extern "C" {
        pub fn bezinkwolu_cross_product(
            ax: i32,
            ay: i32,
            bx: i32,
            by: i32,
            cx: i32,
            cy: i32,
            dx: i32,
            dy: i32,
        ) -> Told;
        pub fn bezinkwolu_area_two(ax: i32, ay: i32, bx: i32, by: i32, cx: i32, cy: i32) -> Told;
        pub fn bezinkwolu_angle_cmp(
            ax: i32,
            ay: i32,
            bx: i32,
            by: i32,
            cx: i32,
            cy: i32,
            dx: i32,
            dy: i32,
        ) -> Told;
        pub fn bezinkwolu_mesh_fault(mesh: *const Row, triangles: usize) -> u32;
        pub fn bezinkwolu_to_convex_polygons(
            mesh: *const Row,
            triangles: usize,
            starts: *mut u32,
            starts_lent: usize,
            corners: *mut i32,
            corners_lent: usize,
        ) -> Counts;
        pub fn bezinkwolu_to_convex_polygons_with_max_vertices(
            mesh: *const Row,
            triangles: usize,
            limit: u32,
            split: u32,
            starts: *mut u32,
            starts_lent: usize,
            corners: *mut i32,
            corners_lent: usize,
        ) -> Counts;
        // of libforms.a: over a slice of triangle structs, each as many bytes as a row
        pub fn to_convex_polygons(
            mesh: *const Row,
            triangles: usize,
            starts: *mut u32,
            starts_lent: usize,
            corners: *mut i32,
            corners_lent: usize,
        ) -> Counts;
        // of libforms.a too: where a walk that holds its contour begins and goes
        pub fn begun(contour: *const i32, length: usize, reflected: bool, fault: *mut u32)
            -> Place;
        pub fn advanced(contour: *const i32, length: usize, at: Place, fault: *mut u32) -> Place;
        pub fn bezinkwolu_read_table(
            bytes: *const u8,
            bytes_length: usize,
            starts: *mut u32,
            starts_length: usize,
            corners: *mut i32,
            corners_length: usize,
        ) -> Counts;
        pub fn bezinkwolu_write_table(
            starts: *const u32,
            starts_length: usize,
            corners: *const i32,
            corners_length: usize,
            bytes: *mut u8,
            bytes_length: usize,
        ) -> ToldLength;
        pub fn bezinkwolu_show_part(
            left_starts: *const u32,
            left_starts_length: usize,
            left_corners: *const i32,
            left_corners_length: usize,
            right_starts: *const u32,
            right_starts_length: usize,
            right_corners: *const i32,
            right_corners_length: usize,
            right: bool,
            k: u32,
        ) -> ToldPart;
        pub fn bezinkwolu_walk_begin(
            contour: *const i32,
            length: usize,
            reflected: bool,
        ) -> ToldPlace;
        pub fn bezinkwolu_walk_point(contour: *const i32, length: usize, at: Place) -> ToldPoint;
        pub fn bezinkwolu_walk_edge(contour: *const i32, length: usize, at: Place) -> ToldEdge;
        pub fn bezinkwolu_walk_advance(contour: *const i32, length: usize, at: Place) -> ToldPlace;
        pub fn bezinkwolu_walk_next(contour: *const i32, length: usize, at: Place) -> ToldStep;
        pub fn bezinkwolu_pair_new(
            left: *const i32,
            left_length: usize,
            right: *const i32,
            right_length: usize,
        ) -> ToldPair;
        pub fn bezinkwolu_pair_difference(
            left: *const i32,
            left_length: usize,
            right: *const i32,
            right_length: usize,
        ) -> ToldPair;
        pub fn bezinkwolu_pair_next(
            left: *const i32,
            left_length: usize,
            right: *const i32,
            right_length: usize,
            at: Places,
        ) -> ToldNext;
        pub fn bezinkwolu_sum_parts(
            left_starts: *const u32,
            left_starts_length: usize,
            left_corners: *const i32,
            left_corners_length: usize,
            left_bounds: Bounds,
            right_starts: *const u32,
            right_starts_length: usize,
            right_corners: *const i32,
            right_corners_length: usize,
            right_bounds: Bounds,
            starts: *mut u32,
            starts_lent: usize,
            corners: *mut i32,
            corners_lent: usize,
        ) -> ToldPairs;
        pub fn bezinkwolu_placement(
            starts: *const u32,
            starts_length: usize,
            corners: *const i32,
            corners_length: usize,
            x: i32,
            y: i32,
        ) -> ToldPlacement;
        pub fn bezinkwolu_contour_area_two(contour: *const i32, length: usize) -> Told;
        pub fn bezinkwolu_part_area_two(
            starts: *const u32,
            starts_length: usize,
            corners: *const i32,
            corners_length: usize,
            k: u32,
        ) -> Told;
        pub fn bezinkwolu_table_area_two(
            starts: *const u32,
            starts_length: usize,
            corners: *const i32,
            corners_length: usize,
        ) -> Told;
        pub fn bezinkwolu_table_bounds(
            starts: *const u32,
            starts_length: usize,
            corners: *const i32,
            corners_length: usize,
        ) -> ToldBounds;
        pub fn bezinkwolu_import_path(
            path: *const Item,
            items: usize,
            frame: HandedFrame,
            corners: *mut i32,
            corners_room: usize,
        ) -> ToldCorners;
        pub fn bezinkwolu_listing(
            bytes: *const u8,
            bytes_length: usize,
            out: *mut [u8; TEXT],
        ) -> usize;
        pub fn bezinkwolu_difference_parts(
            left_starts: *const u32,
            left_starts_length: usize,
            left_corners: *const i32,
            left_corners_length: usize,
            left_bounds: Bounds,
            right_starts: *const u32,
            right_starts_length: usize,
            right_corners: *const i32,
            right_corners_length: usize,
            right_bounds: Bounds,
            starts: *mut u32,
            starts_lent: usize,
            corners: *mut i32,
            corners_lent: usize,
        ) -> ToldPairs;
    }
}

/// An entry point's name, and one run of it by a seed and a count.
type Named = (&'static str, fn(u64, u64) -> Report);

pub const ENTRY_POINTS: &[Named] = &[
    ("cross_product", |s, n| {
        run(&cross_product_beside(cross_product), s, n)
    }),
    ("area_two", |s, n| run(&area_two_beside(area_two), s, n)),
    ("angle_cmp", |s, n| run(&angle_cmp_beside(angle_cmp), s, n)),
    ("mesh_fault", |s, n| {
        run(&mesh_fault_beside(mesh_fault), s, n)
    }),
    ("to_convex_polygons", |s, n| {
        run(&to_convex_polygons_beside(to_convex_polygons), s, n)
    }),
    ("to_convex_polygons_with_max_vertices", |s, n| {
        let entry = with_max_vertices_beside(to_convex_polygons_with_max_vertices);
        run(&entry, s, n)
    }),
    ("to_convex_polygons of structs", |s, n| {
        let mut entry = to_convex_polygons_beside(structs_joined);
        entry.name = "to_convex_polygons of structs";
        run(&entry, s, n)
    }),
    ("read_table", |s, n| {
        run(&read_table_beside(read_table), s, n)
    }),
    ("write_table", |s, n| {
        run(&write_table_beside(write_table), s, n)
    }),
    ("show_part", |s, n| run(&show_part_beside(show_part), s, n)),
    ("walk begin", |s, n| {
        run(&walk::begin_beside(walk_begin), s, n)
    }),
    ("walk point", |s, n| {
        run(&walk::point_beside(walk_point), s, n)
    }),
    ("walk edge", |s, n| run(&walk::edge_beside(walk_edge), s, n)),
    ("walk advance", |s, n| {
        run(&walk::advance_beside(walk_advance), s, n)
    }),
    ("walk next", |s, n| run(&walk::next_beside(walk_next), s, n)),
    ("walk begin, held", |s, n| {
        let mut entry = walk::begin_beside(held_begun);
        entry.name = "walk begin, held";
        run(&entry, s, n)
    }),
    ("walk advance, held", |s, n| {
        let mut entry = walk::advance_beside(held_advanced);
        entry.name = "walk advance, held";
        run(&entry, s, n)
    }),
    ("pair new", |s, n| {
        run(&walk::pair_new_beside(pair_new), s, n)
    }),
    ("pair difference", |s, n| {
        run(&walk::pair_difference_beside(pair_difference), s, n)
    }),
    ("pair next", |s, n| {
        run(&walk::pair_next_beside(pair_next), s, n)
    }),
    ("sum to its end", |s, n| {
        run(&walk::sum_to_end_beside(pair_new, pair_next), s, n)
    }),
    ("difference to its end", |s, n| {
        let entry = walk::difference_to_end_beside(pair_difference, pair_next);
        run(&entry, s, n)
    }),
    ("sum_parts", |s, n| {
        run(&all_pairs_beside(Operation::Sum, sum_parts), s, n)
    }),
    ("difference_parts", |s, n| {
        let entry = all_pairs_beside(Operation::Difference, difference_parts);
        run(&entry, s, n)
    }),
    ("placement", |s, n| run(&placement_beside(placement), s, n)),
    ("placement of two meshes", |s, n| {
        run(&of_meshes_beside(difference_parts, placement), s, n)
    }),
    ("contour_area_two", |s, n| {
        run(&contour_area_two_beside(contour_area_two), s, n)
    }),
    ("part_area_two", |s, n| {
        run(&part_area_two_beside(part_area_two), s, n)
    }),
    ("table_area_two", |s, n| {
        run(&table_area_two_beside(table_area_two), s, n)
    }),
    ("table_bounds", |s, n| {
        run(&table_bounds_beside(table_bounds), s, n)
    }),
    ("import_path", |s, n| {
        run(&import_path_beside(import_path), s, n)
    }),
    ("listing", |s, n| run(&listing_beside(listing), s, n)),
];

// Safe: the functions take and return plain numbers, and the prover has shown that
// they do not fail.

fn cross_product([a, b, c, d]: Four) -> Told {
    unsafe { archive::bezinkwolu_cross_product(a.0, a.1, b.0, b.1, c.0, c.1, d.0, d.1) }
}

fn area_two([a, b, c]: [Point; 3]) -> Told {
    unsafe { archive::bezinkwolu_area_two(a.0, a.1, b.0, b.1, c.0, c.1) }
}

fn angle_cmp([a, b, c, d]: Four) -> Told {
    unsafe { archive::bezinkwolu_angle_cmp(a.0, a.1, b.0, b.1, c.0, c.1, d.0, d.1) }
}

// Safe: each list and buffer passes as its place and its length, lent for the call
// alone, and the prover has shown that nothing past it is touched.

pub fn mesh_fault(mesh: Handed<Row>) -> u32 {
    unsafe { archive::bezinkwolu_mesh_fault(mesh.at, mesh.length) }
}

pub fn to_convex_polygons(mesh: Handed<Row>, starts: Handed<u32>, corners: Handed<i32>) -> Counts {
    unsafe {
        archive::bezinkwolu_to_convex_polygons(
            mesh.at,
            mesh.length,
            starts.at,
            starts.length,
            corners.at,
            corners.length,
        )
    }
}

pub fn to_convex_polygons_with_max_vertices(
    mesh: Handed<Row>,
    limit: u32,
    split: u32,
    starts: Handed<u32>,
    corners: Handed<i32>,
) -> Counts {
    unsafe {
        archive::bezinkwolu_to_convex_polygons_with_max_vertices(
            mesh.at,
            mesh.length,
            limit,
            split,
            starts.at,
            starts.length,
            corners.at,
            corners.length,
        )
    }
}

/// Joining over triangle structs: a row's nine numbers are x and y of a struct's three
/// points and its three neighbours, at the same places.
pub fn structs_joined(mesh: Handed<Row>, starts: Handed<u32>, corners: Handed<i32>) -> Counts {
    unsafe {
        archive::to_convex_polygons(
            mesh.at,
            mesh.length,
            starts.at,
            starts.length,
            corners.at,
            corners.length,
        )
    }
}

fn read_table(bytes: Handed<u8>, starts: Handed<u32>, corners: Handed<i32>) -> Counts {
    unsafe {
        archive::bezinkwolu_read_table(
            bytes.at,
            bytes.length,
            starts.at,
            starts.length,
            corners.at,
            corners.length,
        )
    }
}

fn write_table(table: HandedTable, bytes: Handed<u8>) -> ToldLength {
    unsafe {
        archive::bezinkwolu_write_table(
            table.starts.at,
            table.starts.length,
            table.corners.at,
            table.corners.length,
            bytes.at,
            bytes.length,
        )
    }
}

fn show_part([left, right]: [HandedTable; 2], side: Side, part: u32) -> ToldPart {
    unsafe {
        archive::bezinkwolu_show_part(
            left.starts.at,
            left.starts.length,
            left.corners.at,
            left.corners.length,
            right.starts.at,
            right.starts.length,
            right.corners.at,
            right.corners.length,
            side == Side::Right,
            part,
        )
    }
}

fn walk_begin(contour: Handed<i32>, reflected: bool) -> ToldPlace {
    unsafe { archive::bezinkwolu_walk_begin(contour.at, contour.length, reflected) }
}

fn walk_point(contour: Handed<i32>, at: Place) -> ToldPoint {
    unsafe { archive::bezinkwolu_walk_point(contour.at, contour.length, at) }
}

fn walk_edge(contour: Handed<i32>, at: Place) -> ToldEdge {
    unsafe { archive::bezinkwolu_walk_edge(contour.at, contour.length, at) }
}

fn walk_advance(contour: Handed<i32>, at: Place) -> ToldPlace {
    unsafe { archive::bezinkwolu_walk_advance(contour.at, contour.length, at) }
}

fn walk_next(contour: Handed<i32>, at: Place) -> ToldStep {
    unsafe { archive::bezinkwolu_walk_next(contour.at, contour.length, at) }
}

/// What a call leaves in a lent number; no number of the papers where what stands about
/// it has changed.
fn numbered<T>(call: impl FnOnce(*mut u32) -> T) -> (u32, T) {
    let mut lent = Lent::<u32>::places(1);
    let told = call(lent.handed().at);
    let number = lent.slice()[0];
    let kept = lent.holds(&[number]);
    (if kept { number } else { u32::MAX }, told)
}

fn held_begun(contour: Handed<i32>, reflected: bool) -> ToldPlace {
    let (fault, place) =
        numbered(|fault| unsafe { archive::begun(contour.at, contour.length, reflected, fault) });
    ToldPlace { fault, place }
}

fn held_advanced(contour: Handed<i32>, at: Place) -> ToldPlace {
    let (fault, place) =
        numbered(|fault| unsafe { archive::advanced(contour.at, contour.length, at, fault) });
    ToldPlace { fault, place }
}

fn pair_new(left: Handed<i32>, right: Handed<i32>) -> ToldPair {
    unsafe { archive::bezinkwolu_pair_new(left.at, left.length, right.at, right.length) }
}

fn pair_difference(left: Handed<i32>, right: Handed<i32>) -> ToldPair {
    unsafe { archive::bezinkwolu_pair_difference(left.at, left.length, right.at, right.length) }
}

fn pair_next(left: Handed<i32>, right: Handed<i32>, at: Places) -> ToldNext {
    unsafe { archive::bezinkwolu_pair_next(left.at, left.length, right.at, right.length, at) }
}

/// `sum_parts` or `difference_parts`.
fn all_pairs(
    operation: Operation,
    [left, right]: [HandedOperand; 2],
    starts: Handed<u32>,
    corners: Handed<i32>,
) -> ToldPairs {
    let asked = match operation {
        Operation::Sum => archive::bezinkwolu_sum_parts,
        Operation::Difference => archive::bezinkwolu_difference_parts,
    };
    unsafe {
        asked(
            left.table.starts.at,
            left.table.starts.length,
            left.table.corners.at,
            left.table.corners.length,
            left.bounds,
            right.table.starts.at,
            right.table.starts.length,
            right.table.corners.at,
            right.table.corners.length,
            right.bounds,
            starts.at,
            starts.length,
            corners.at,
            corners.length,
        )
    }
}

pub fn sum_parts(o: [HandedOperand; 2], starts: Handed<u32>, corners: Handed<i32>) -> ToldPairs {
    all_pairs(Operation::Sum, o, starts, corners)
}

fn difference_parts(
    operands: [HandedOperand; 2],
    starts: Handed<u32>,
    corners: Handed<i32>,
) -> ToldPairs {
    all_pairs(Operation::Difference, operands, starts, corners)
}

pub fn placement(contours: HandedTable, (x, y): Point) -> ToldPlacement {
    let HandedTable { starts, corners } = contours;
    unsafe {
        archive::bezinkwolu_placement(starts.at, starts.length, corners.at, corners.length, x, y)
    }
}

pub fn contour_area_two(contour: Handed<i32>) -> Told {
    unsafe { archive::bezinkwolu_contour_area_two(contour.at, contour.length) }
}

pub fn part_area_two(table: HandedTable, k: u32) -> Told {
    let HandedTable { starts, corners } = table;
    unsafe {
        archive::bezinkwolu_part_area_two(starts.at, starts.length, corners.at, corners.length, k)
    }
}

pub fn table_area_two(table: HandedTable) -> Told {
    let HandedTable { starts, corners } = table;
    unsafe {
        archive::bezinkwolu_table_area_two(starts.at, starts.length, corners.at, corners.length)
    }
}

pub fn table_bounds(table: HandedTable) -> ToldBounds {
    let HandedTable { starts, corners } = table;
    unsafe {
        archive::bezinkwolu_table_bounds(starts.at, starts.length, corners.at, corners.length)
    }
}

pub fn import_path(path: Handed<Item>, frame: HandedFrame, corners: Handed<i32>) -> ToldCorners {
    unsafe {
        archive::bezinkwolu_import_path(path.at, path.length, frame, corners.at, corners.length)
    }
}

// Safe: the lent text is as long as the function's array.
fn listing(bytes: Handed<u8>, out: Handed<u8>) -> usize {
    assert_eq!(out.length, TEXT);
    unsafe { archive::bezinkwolu_listing(bytes.at, bytes.length, out.at.cast()) }
}
