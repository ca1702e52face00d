//! The archive's functions, and all that is unsafe. bezinkwolu.h has their contracts; `lend` has
//! the rules of the memory that they write.

use crate::{Error, Frame, IntRect, PartTable};
use alloc::vec::Vec;
use core::mem::size_of;

/// Six coordinates and three neighbours, none as -1: `bezinkwolu_triangle`, number by number.
pub(crate) type Row = [i32; 9];

#[repr(C)]
#[derive(Clone, Copy)]
struct Counts {
    fault: u32,
    parts: u32,
    corners: u32,
}

#[repr(C)]
#[derive(Clone, Copy)]
struct ToldPairs {
    fault: u32,
    contours: u32,
    corners: u32,
    bounds: IntRect,
}

#[repr(C)]
struct ToldLength {
    fault: u32,
    length: usize,
}

#[repr(C)]
pub(crate) struct ToldPart {
    pub(crate) fault: u32,
    pub(crate) offset: usize,
    pub(crate) length: usize,
}

#[repr(C)]
pub(crate) struct ToldPlacement {
    pub(crate) fault: u32,
    pub(crate) placement: u32,
}

#[repr(C)]
struct ToldArea {
    fault: u32,
    area_two: i64,
}

#[repr(C)]
struct ToldBounds {
    fault: u32,
    bounds: IntRect,
}

#[repr(C)]
#[derive(Debug, Clone, Copy)]
pub(crate) struct Place {
    index: u16,
    remaining: u16,
    reverse: bool,
    reflected: bool,
    segment: bool,
    start: u16,
    end: u16,
}

#[repr(C)]
#[derive(Debug, Clone, Copy)]
pub(crate) struct Places {
    a: Place,
    b: Place,
}

#[repr(C)]
pub(crate) struct ToldPlace {
    pub(crate) fault: u32,
    pub(crate) place: Place,
}

#[repr(C)]
pub(crate) struct ToldPoint {
    pub(crate) fault: u32,
    pub(crate) x: i32,
    pub(crate) y: i32,
}

#[repr(C)]
pub(crate) struct ToldStep {
    pub(crate) fault: u32,
    pub(crate) x: i64,
    pub(crate) y: i64,
    pub(crate) place: Place,
}

#[repr(C)]
pub(crate) struct ToldPair {
    pub(crate) fault: u32,
    pub(crate) places: Places,
}

#[repr(C)]
pub(crate) struct ToldNext {
    pub(crate) fault: u32,
    pub(crate) corners: u32,
    pub(crate) x: i32,
    pub(crate) y: i32,
    pub(crate) places: Places,
}

/// An item of a path: its kind, and its x and y, 0 where it carries none.
#[repr(C)]
pub(crate) struct Item {
    pub(crate) kind: u64,
    pub(crate) x: f64,
    pub(crate) y: f64,
}

#[repr(C)]
struct ToldCorners {
    fault: u32,
    corners: u32,
}

type AllPairs = unsafe extern "C" fn(
    *const u32,
    usize,
    *const i32,
    usize,
    IntRect,
    *const u32,
    usize,
    *const i32,
    usize,
    IntRect,
    *mut u32,
    usize,
    *mut i32,
    usize,
) -> ToldPairs;

#[rustfmt::skip]
extern "C" {
    fn bezinkwolu_mesh_fault(mesh: *const Row, triangles: usize) -> u32;
    fn bezinkwolu_to_convex_polygons(mesh: *const Row, triangles: usize, starts: *mut u32, starts_room: usize, corners: *mut i32, corners_room: usize) -> Counts;
    fn bezinkwolu_to_convex_polygons_with_max_vertices(mesh: *const Row, triangles: usize, limit: u32, split: u32, starts: *mut u32, starts_room: usize, corners: *mut i32, corners_room: usize) -> Counts;
    fn bezinkwolu_read_table(bytes: *const u8, length: usize, starts: *mut u32, starts_room: usize, corners: *mut i32, corners_room: usize) -> Counts;
    fn bezinkwolu_write_table(starts: *const u32, starts_length: usize, corners: *const i32, corners_length: usize, bytes: *mut u8, bytes_room: usize) -> ToldLength;
    fn bezinkwolu_show_part(left_starts: *const u32, left_starts_length: usize, left_corners: *const i32, left_corners_length: usize, right_starts: *const u32, right_starts_length: usize, right_corners: *const i32, right_corners_length: usize, right: bool, k: u32) -> ToldPart;
    fn bezinkwolu_sum_parts(left_starts: *const u32, left_starts_length: usize, left_corners: *const i32, left_corners_length: usize, left_bounds: IntRect, right_starts: *const u32, right_starts_length: usize, right_corners: *const i32, right_corners_length: usize, right_bounds: IntRect, starts: *mut u32, starts_room: usize, corners: *mut i32, corners_room: usize) -> ToldPairs;
    fn bezinkwolu_difference_parts(left_starts: *const u32, left_starts_length: usize, left_corners: *const i32, left_corners_length: usize, left_bounds: IntRect, right_starts: *const u32, right_starts_length: usize, right_corners: *const i32, right_corners_length: usize, right_bounds: IntRect, starts: *mut u32, starts_room: usize, corners: *mut i32, corners_room: usize) -> ToldPairs;
    fn bezinkwolu_placement(starts: *const u32, starts_length: usize, corners: *const i32, corners_length: usize, x: i32, y: i32) -> ToldPlacement;
    fn bezinkwolu_contour_area_two(contour: *const i32, length: usize) -> ToldArea;
    fn bezinkwolu_table_area_two(starts: *const u32, starts_length: usize, corners: *const i32, corners_length: usize) -> ToldArea;
    fn bezinkwolu_table_bounds(starts: *const u32, starts_length: usize, corners: *const i32, corners_length: usize) -> ToldBounds;
    fn bezinkwolu_import_path(path: *const Item, items: usize, frame: Frame, corners: *mut i32, corners_room: usize) -> ToldCorners;
    fn bezinkwolu_walk_begin(contour: *const i32, length: usize, reflected: bool) -> ToldPlace;
    fn bezinkwolu_walk_point(contour: *const i32, length: usize, at: Place) -> ToldPoint;
    fn bezinkwolu_walk_next(contour: *const i32, length: usize, at: Place) -> ToldStep;
    fn bezinkwolu_pair_new(left: *const i32, left_length: usize, right: *const i32, right_length: usize) -> ToldPair;
    fn bezinkwolu_pair_difference(left: *const i32, left_length: usize, right: *const i32, right_length: usize) -> ToldPair;
    fn bezinkwolu_pair_next(left: *const i32, left_length: usize, right: *const i32, right_length: usize, at: Places) -> ToldNext;
}

/// What a call tells that writes starts and corners.
trait Told: Copy {
    fn fault(self) -> u32;
    fn parts(self) -> usize;
    fn corners(self) -> usize;
}

impl Told for Counts {
    fn fault(self) -> u32 {
        self.fault
    }

    fn parts(self) -> usize {
        self.parts as usize
    }

    fn corners(self) -> usize {
        self.corners as usize
    }
}

impl Told for ToldPairs {
    fn fault(self) -> u32 {
        self.fault
    }

    fn parts(self) -> usize {
        self.contours as usize
    }

    fn corners(self) -> usize {
        self.corners as usize
    }
}

/// Lends a table's memory, made larger where it has no room for so many starts and so many numbers,
/// and leaves in it what the call wrote; where the call refuses, what it held. Memory past what it
/// held has no first values: what the answer does not need is never touched.
///
/// # Safety
/// The call writes within what it is lent. Where it tells no fault it has written one start more
/// than it tells parts, and two numbers for each corner; where it tells one it has written nothing.
unsafe fn lend<T: Told>(table: &mut PartTable, starts_room: usize, numbers_room: usize, call: impl FnOnce(*mut u32, *mut i32) -> T) -> Result<T, Error> {
    let (starts, numbers) = table.lists_mut();
    starts.reserve_exact(starts_room.saturating_sub(starts.len()));
    numbers.reserve_exact(numbers_room.saturating_sub(numbers.len()));
    let told = call(starts.as_mut_ptr(), numbers.as_mut_ptr());
    Error::told(told.fault())?;
    // SAFETY: so many were written, into what was lent.
    unsafe {
        starts.set_len(told.parts() + 1);
        numbers.set_len(2 * told.corners());
    }
    Ok(told)
}

// ---- Below, each call is sound for one reason: a slice passes as its place and its length, for
// the call alone; what is written is lent by `lend`, with the length that is told to the call; and
// the prover has shown of each function that it takes any input and touches nothing but that.

/// Document 01's limits: past them a mesh or a table is refused whatever the room, so that none is
/// lent for more.
const MAX_TRIANGLES: usize = 1024;
const MAX_PARTS: usize = 2048;
const MAX_CORNERS: usize = 8192;
const MAX_CONTOUR: usize = 1026;

pub(crate) fn mesh_fault(mesh: &[Row]) -> u32 {
    // SAFETY: as above.
    unsafe { bezinkwolu_mesh_fault(mesh.as_ptr(), mesh.len()) }
}

/// A part takes a triangle or more, and has at most three corners for each.
pub(crate) fn to_convex_polygons(mesh: &[Row], parts: &mut PartTable) -> Result<(), Error> {
    let n = mesh.len().min(MAX_TRIANGLES);
    let (s, c) = (n + 1, 6 * n);
    // SAFETY: as above.
    let told = unsafe {
        lend(parts, s, c, |starts, corners| {
            bezinkwolu_to_convex_polygons(mesh.as_ptr(), mesh.len(), starts, s, corners, c)
        })
    };
    told.map(|_| ())
}

/// A split makes at most two parts for each triangle, and six corners.
pub(crate) fn to_convex_polygons_with_max_vertices(mesh: &[Row], limit: u32, split: u32, parts: &mut PartTable) -> Result<(), Error> {
    let n = mesh.len().min(MAX_TRIANGLES);
    let (s, c) = (2 * n + 1, 12 * n);
    // SAFETY: as above.
    let told = unsafe {
        lend(parts, s, c, |starts, corners| {
            bezinkwolu_to_convex_polygons_with_max_vertices(mesh.as_ptr(), mesh.len(), limit, split, starts, s, corners, c)
        })
    };
    told.map(|_| ())
}

/// An operand: a table and its bounds.
pub(crate) type Operand<'a> = (&'a PartTable, IntRect);

/// All pair sums or differences; answers the bounds of the result. A pair has at most the corners
/// of both its parts.
pub(crate) fn all_pairs(difference: bool, left: Operand, right: Operand, contours: &mut PartTable) -> Result<IntRect, Error> {
    let call: AllPairs = if difference { bezinkwolu_difference_parts } else { bezinkwolu_sum_parts };
    let ((left, lb), (right, rb)) = (left, right);
    let parts = |table: &PartTable| table.len().min(MAX_PARTS);
    let corners = |table: &PartTable| table.corner_count().min(MAX_CORNERS);
    let s = parts(left) * parts(right) + 1;
    let c = 2 * (parts(right) * corners(left) + parts(left) * corners(right));
    let ((ls, lc), (rs, rc)) = (left.lists(), right.lists());
    // SAFETY: as above.
    let told = unsafe {
        lend(contours, s, c, |starts, corners| {
            call(
                ls.as_ptr(),
                ls.len(),
                lc.as_ptr(),
                lc.len(),
                lb,
                rs.as_ptr(),
                rs.len(),
                rc.as_ptr(),
                rc.len(),
                rb,
                starts,
                s,
                corners,
                c,
            )
        })
    };
    told.map(|told| told.bounds)
}

/// A stored table has four bytes for each start and for each number.
pub(crate) fn read_table(bytes: &[u8], table: &mut PartTable) -> Result<(), Error> {
    let words = bytes.len() / size_of::<u32>();
    let (s, c) = (words.min(MAX_PARTS + 1), words.min(2 * MAX_CORNERS));
    // SAFETY: as above.
    let told = unsafe {
        lend(table, s, c, |starts, corners| {
            bezinkwolu_read_table(bytes.as_ptr(), bytes.len(), starts, s, corners, c)
        })
    };
    told.map(|_| ())
}

/// The two counts, the starts and the numbers.
pub(crate) fn write_table(table: &PartTable) -> Result<Vec<u8>, Error> {
    let (starts, corners) = table.lists();
    let words = 2 + starts.len().min(MAX_PARTS + 1) + corners.len().min(2 * MAX_CORNERS);
    let room = size_of::<u32>() * words;
    let mut bytes: Vec<u8> = Vec::with_capacity(room);
    // SAFETY: as above; and the call writes as many bytes as it tells, at the front.
    unsafe {
        let told = bezinkwolu_write_table(starts.as_ptr(), starts.len(), corners.as_ptr(), corners.len(), bytes.as_mut_ptr(), room);
        Error::told(told.fault)?;
        bytes.set_len(told.length);
    }
    Ok(bytes)
}

pub(crate) fn show_part(left: &PartTable, right: &PartTable, of_right: bool, k: u32) -> ToldPart {
    let ((ls, lc), (rs, rc)) = (left.lists(), right.lists());
    // SAFETY: as above.
    unsafe {
        bezinkwolu_show_part(
            ls.as_ptr(),
            ls.len(),
            lc.as_ptr(),
            lc.len(),
            rs.as_ptr(),
            rs.len(),
            rc.as_ptr(),
            rc.len(),
            of_right,
            k,
        )
    }
}

pub(crate) fn placement(contours: &PartTable, x: i32, y: i32) -> ToldPlacement {
    let (starts, corners) = contours.lists();
    // SAFETY: as above.
    unsafe { bezinkwolu_placement(starts.as_ptr(), starts.len(), corners.as_ptr(), corners.len(), x, y) }
}

pub(crate) fn contour_area_two(contour: &[i32]) -> Result<i64, Error> {
    // SAFETY: as above.
    let told = unsafe { bezinkwolu_contour_area_two(contour.as_ptr(), contour.len()) };
    Error::told(told.fault)?;
    Ok(told.area_two)
}

pub(crate) fn table_area_two(contours: &PartTable) -> Result<i64, Error> {
    let (starts, corners) = contours.lists();
    // SAFETY: as above.
    let told = unsafe { bezinkwolu_table_area_two(starts.as_ptr(), starts.len(), corners.as_ptr(), corners.len()) };
    Error::told(told.fault)?;
    Ok(told.area_two)
}

pub(crate) fn table_bounds(contours: &PartTable) -> Result<IntRect, Error> {
    let (starts, corners) = contours.lists();
    // SAFETY: as above.
    let told = unsafe { bezinkwolu_table_bounds(starts.as_ptr(), starts.len(), corners.as_ptr(), corners.len()) };
    Error::told(told.fault)?;
    Ok(told.bounds)
}

/// Two numbers for each corner, x and y: each item but the close writes one.
pub(crate) fn import_path(path: &[Item], frame: Frame) -> Result<Vec<i32>, Error> {
    let room = 2 * path.len().saturating_sub(1).min(MAX_CONTOUR);
    let mut numbers: Vec<i32> = Vec::with_capacity(room);
    // SAFETY: as above; and the call writes two numbers for each corner that it tells, at the
    // front.
    unsafe {
        let told = bezinkwolu_import_path(path.as_ptr(), path.len(), frame, numbers.as_mut_ptr(), room);
        Error::told(told.fault)?;
        numbers.set_len(2 * told.corners as usize);
    }
    Ok(numbers)
}

pub(crate) fn walk_begin(contour: &[i32], reflected: bool) -> ToldPlace {
    // SAFETY: as above.
    unsafe { bezinkwolu_walk_begin(contour.as_ptr(), contour.len(), reflected) }
}

pub(crate) fn walk_point(contour: &[i32], at: Place) -> ToldPoint {
    // SAFETY: as above.
    unsafe { bezinkwolu_walk_point(contour.as_ptr(), contour.len(), at) }
}

pub(crate) fn walk_next(contour: &[i32], at: Place) -> ToldStep {
    // SAFETY: as above.
    unsafe { bezinkwolu_walk_next(contour.as_ptr(), contour.len(), at) }
}

pub(crate) fn pair_begin(difference: bool, left: &[i32], right: &[i32]) -> ToldPair {
    let call = if difference { bezinkwolu_pair_difference } else { bezinkwolu_pair_new };
    // SAFETY: as above.
    unsafe { call(left.as_ptr(), left.len(), right.as_ptr(), right.len()) }
}

pub(crate) fn pair_next(left: &[i32], right: &[i32], at: Places) -> ToldNext {
    // SAFETY: as above.
    unsafe { bezinkwolu_pair_next(left.as_ptr(), left.len(), right.as_ptr(), right.len(), at) }
}
