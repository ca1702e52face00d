//! A place by the contours of a pair result: 7, 2, and then whether it is apart from
//! them, touching or overlapping. The same of two meshes, from their triangles.

use crate::limits::point_in_range;
use crate::mesh::Triangle;
use crate::table::{breaks_starts, leaves_range, Table};
use crate::triangles::{meets, overlaps};
use crate::{first, Fault, Point};

pub const APART: u32 = 0;
pub const TOUCHING: u32 = 1;
pub const OVERLAPPING: u32 = 2;

/// 7, then 2: of the place or of a corner.
pub fn fault(table: &Table, place: Point) -> Fault {
    first(&[
        (7, &|| breaks_starts(table)),
        (2, &|| !point_in_range(place) || leaves_range(table)),
    ])
}

/// Of a table and a place that have no fault.
pub fn placement(table: &Table, place: Point) -> u32 {
    let contours = table.contours();
    if contours.iter().any(|c| is_strictly_inside(c, place)) {
        OVERLAPPING
    } else if contours.iter().any(|c| is_inside(c, place)) {
        TOUCHING
    } else {
        APART
    }
}

/// Left of each edge that has a length, of which there is one.
fn is_strictly_inside(contour: &[Point], place: Point) -> bool {
    let with_length = || edges(contour).filter(|(a, b)| a != b);
    with_length().next().is_some() && with_length().all(|edge| side(edge, place) > 0)
}

/// On or left of each edge, and not past all corners to one side.
fn is_inside(contour: &[Point], (x, y): Point) -> bool {
    let between = |value: i32, of: fn(&Point) -> i32| {
        contour.iter().map(of).min() <= Some(value) && Some(value) <= contour.iter().map(of).max()
    };
    !contour.is_empty()
        && edges(contour).all(|edge| side(edge, (x, y)) >= 0)
        && between(x, |corner| corner.0)
        && between(y, |corner| corner.1)
}

/// From each corner to the next, from the last to the first.
fn edges(contour: &[Point]) -> impl Iterator<Item = (Point, Point)> + '_ {
    let next = contour.iter().cycle().skip(1);
    contour.iter().copied().zip(next.copied())
}

/// Above 0 where the place is left of the edge, below 0 where it is right of it.
fn side((a, b): (Point, Point), p: Point) -> i128 {
    let wide = |v: i32| i128::from(v);
    (wide(b.0) - wide(a.0)) * (wide(p.1) - wide(a.1))
        - (wide(b.1) - wide(a.1)) * (wide(p.0) - wide(a.0))
}

/// Whether the second mesh, moved to the place, overlaps the first, meets it and does
/// not overlap, or neither.
pub fn of_meshes(first: &[Triangle], second: &[Triangle], place: Point) -> u32 {
    let any = |test: fn([Point; 3], [Point; 3], Point) -> bool| {
        let of = |a: &Triangle| second.iter().any(|b| test(a.points, b.points, place));
        first.iter().any(of)
    };
    if any(overlaps) {
        OVERLAPPING
    } else if any(meets) {
        TOUCHING
    } else {
        APART
    }
}

#[cfg(test)]
mod tests {
    use super::*;
    use crate::limits::NONE;

    fn of(contours: &[&[Point]], place: Point) -> u32 {
        let contours: Vec<Vec<Point>> = contours.iter().map(|c| c.to_vec()).collect();
        let table = Table::of(&contours);
        assert_eq!(fault(&table, place), 0);
        placement(&table, place)
    }

    const SQUARE: &[Point] = &[(0, 0), (4, 0), (4, 4), (0, 4)];

    #[test]
    fn a_square_covers_its_edges_and_what_they_enclose() {
        assert_eq!(of(&[SQUARE], (1, 3)), OVERLAPPING);
        for place in [(0, 0), (2, 0), (4, 3), (0, 4)] {
            assert_eq!(of(&[SQUARE], place), TOUCHING);
        }
        for place in [(-1, 0), (2, 5), (5, 4), (5, 5)] {
            assert_eq!(of(&[SQUARE], place), APART);
        }
    }

    #[test]
    fn repeated_corners_change_nothing() {
        let dressed: &[Point] = &[(0, 0), (0, 0), (4, 0), (4, 4), (4, 4), (4, 4), (0, 4)];
        for x in -1..=5 {
            for y in -1..=5 {
                assert_eq!(of(&[dressed], (x, y)), of(&[SQUARE], (x, y)));
            }
        }
    }

    #[test]
    fn segments_and_points_are_touched_and_clockwise_ones_cover_nothing_inside() {
        let segment: &[Point] = &[(0, 0), (4, 2)];
        assert_eq!(of(&[segment], (2, 1)), TOUCHING);
        assert_eq!(of(&[segment], (4, 2)), TOUCHING);
        assert_eq!(of(&[segment], (6, 3)), APART);
        assert_eq!(of(&[segment], (2, 2)), APART);
        assert_eq!(of(&[&[(3, 3), (3, 3)]], (3, 3)), TOUCHING);
        assert_eq!(of(&[&[(3, 3)]], (3, 4)), APART);
        assert_eq!(of(&[&[]], (0, 0)), APART);
        assert_eq!(of(&[], (0, 0)), APART);
        assert_eq!(of(&[&[(0, 0), (0, 4), (4, 4), (4, 0)]], (1, 1)), APART);
    }

    #[test]
    fn the_most_that_one_contour_tells_is_told() {
        let (beside, empty): (&[Point], &[Point]) = (&[(4, 1), (9, 1), (9, 2)], &[]);
        assert_eq!(of(&[beside, empty, SQUARE], (4, 1)), TOUCHING);
        assert_eq!(of(&[beside, empty, SQUARE], (1, 1)), OVERLAPPING);
        assert_eq!(of(&[SQUARE, beside], (6, 2)), APART);
    }

    #[test]
    fn seven_is_before_two_and_no_limits_bind() {
        let table = |starts: &[u32], corners: &[i32]| Table {
            starts: starts.to_vec(),
            corners: corners.to_vec(),
        };
        let far = 1 << 30;
        assert_eq!(fault(&table(&[], &[]), (0, 0)), 7);
        assert_eq!(fault(&table(&[0], &[]), (0, 0)), 0);
        assert_eq!(fault(&table(&[0], &[1]), (far, 0)), 7);
        assert_eq!(fault(&table(&[0, 1], &[1, 2, 3]), (0, 0)), 7);
        assert_eq!(fault(&table(&[1, 1], &[1, 2]), (0, 0)), 7);
        assert_eq!(fault(&table(&[0, 1, 0, 1], &[far, 2]), (0, 0)), 7);
        assert_eq!(fault(&table(&[0, 2], &[1, 2]), (0, 0)), 7);
        assert_eq!(fault(&table(&[0, 0], &[1, 2]), (0, 0)), 7);
        assert_eq!(fault(&table(&[0, 1], &[1, -far]), (0, 0)), 2);
        for place in [(far, 0), (-far, 0), (0, far), (0, -far), (0, i32::MIN)] {
            assert_eq!(fault(&table(&[0, 1], &[1, 2]), place), 2);
        }
        assert_eq!(fault(&table(&[0, 1], &[1 - far, 2]), (0, far - 1)), 0);
        let many = Table::of(&vec![vec![(0, 0); 5]; 3_000]);
        let long = Table::of(&[vec![(0, 0); 2_000]]);
        assert_eq!(fault(&many, (0, 0)) + fault(&long, (0, 0)), 0);
    }

    #[test]
    fn meshes_are_placed_by_their_triangles() {
        let one = |points| {
            [Triangle {
                points,
                neighbours: [NONE; 3],
            }]
        };
        let k = one([(0, 0), (2, 0), (0, 2)]);
        assert_eq!(of_meshes(&k, &k, (0, 0)), OVERLAPPING);
        assert_eq!(of_meshes(&k, &k, (1, 1)), TOUCHING);
        assert_eq!(of_meshes(&k, &k, (2, 1)), APART);
        assert_eq!(of_meshes(&k, &[], (0, 0)), APART);
    }
}
