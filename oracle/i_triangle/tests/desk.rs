//! Document 01's examples, asked of the given Rust; and how it settles ties.

use i_triangle::advanced::convex::ConvexSplitStrategy::{self, Centroid, EarClipping, Fan};
use i_triangle::int::expose::{
    centroid, one_pair, pairs, parts, split_parts, validate_bounds, Contour,
    Operation::{Difference, Sum},
    Point, Record,
};
use i_triangle::int::minkowski::MinkowskiError::CoordinateOutOfRange;
use i_triangle::int::reach;

const NONE: u32 = u32::MAX;
const K: [Point; 3] = [(0, 0), (2, 0), (0, 2)];

fn square() -> Vec<Record> {
    vec![
        ([(0, 0), (4, 0), (4, 4)], [NONE, 1, NONE]),
        ([(0, 0), (4, 4), (0, 4)], [NONE, NONE, 0]),
    ]
}

fn square_split(strategy: ConvexSplitStrategy) -> Vec<Contour> {
    split_parts(&square(), 3, strategy)
}

#[test]
fn the_dart_gives_two_parts() {
    let dart = [
        ([(0, 0), (4, 0), (0, 4)], [1, NONE, NONE]),
        ([(4, 0), (10, -2), (0, 4)], [NONE, 0, NONE]),
    ];
    let expected = [vec![(0, 4), (0, 0), (4, 0)], vec![(0, 4), (4, 0), (10, -2)]];
    assert_eq!(parts(&dart), expected);
}

#[test]
fn the_square_and_its_splits() {
    assert_eq!(parts(&square()), [[(0, 4), (0, 0), (4, 0), (4, 4)]]);
    assert_eq!(
        square_split(EarClipping),
        [[(0, 4), (0, 0), (4, 0)], [(4, 0), (4, 4), (0, 4)]]
    );
    assert_eq!(
        square_split(Fan),
        [[(0, 4), (0, 0), (4, 0)], [(0, 4), (4, 0), (4, 4)]]
    );
    let about = square_split(Centroid);
    assert_eq!(about.len(), 4);
    assert!(about
        .iter()
        .all(|part| part.len() == 3 && part[0] == (2, 2)));
}

#[test]
fn the_unit_square_falls_back_to_the_fan() {
    let unit = [
        ([(0, 0), (1, 0), (1, 1)], [NONE, 1, NONE]),
        ([(0, 0), (1, 1), (0, 1)], [NONE, NONE, 0]),
    ];
    assert_eq!(split_parts(&unit, 3, Centroid), split_parts(&unit, 3, Fan));
}

#[test]
fn a_corner_in_line_is_dropped() {
    let joined = [
        (K, [1, NONE, NONE]),
        ([(2, 0), (4, 0), (0, 2)], [NONE, 0, NONE]),
    ];
    assert_eq!(parts(&joined), [[(4, 0), (0, 2), (0, 0)]]);
}

#[test]
fn a_group_of_edges_that_ends_early() {
    // Readings, document 01, point 2: four parts at limit 4.
    let pentagon = [(0, -1), (1, -1), (2, 1), (0, 1), (-1, 0)];
    let mesh = [
        ([pentagon[0], pentagon[1], pentagon[2]], [NONE, 1, NONE]),
        ([pentagon[0], pentagon[2], pentagon[3]], [NONE, 2, 0]),
        ([pentagon[0], pentagon[3], pentagon[4]], [NONE, NONE, 1]),
    ];
    let whole = parts(&mesh);
    assert_eq!(whole.len(), 1);
    assert!(centroid(&whole[0]).is_some());
    assert_eq!(split_parts(&mesh, 4, Centroid).len(), 4);
}

#[test]
fn sums_and_differences_of_k() {
    assert_eq!(one_pair(Sum, &K, &K), Some(vec![(0, 0), (4, 0), (0, 4)]));
    let hexagon = vec![(0, -2), (2, -2), (2, 0), (0, 2), (-2, 2), (-2, 0)];
    assert_eq!(one_pair(Difference, &K, &K), Some(hexagon));
    assert_eq!(
        one_pair(Sum, &[(5, 5)], &K),
        Some(vec![(5, 5), (7, 5), (5, 7)])
    );
    assert_eq!(one_pair(Sum, &[(5, 5)], &[(1, 1)]), Some(vec![]));
    assert_eq!(one_pair(Sum, &[], &K), None);
}

#[test]
fn pairs_keep_their_positions() {
    let left = [K.to_vec(), vec![], vec![(0, 0)]];
    let right = [vec![(0, 0)], K.to_vec()];
    let found = pairs(Sum, &left, [0, 2, 0, 2], &right, [0, 2, 0, 2]);
    let k = K.to_vec();
    let twice = vec![(0, 0), (4, 0), (0, 4)];
    assert_eq!(found, Ok(vec![k.clone(), twice, vec![], vec![], vec![], k]));
}

#[test]
fn result_bounds_are_strict() {
    assert_eq!(validate_bounds([-1073741823, 1073741823, 0, 0]), Ok(()));
    assert_eq!(
        validate_bounds([0, 1073741824, 0, 0]),
        Err(CoordinateOutOfRange)
    );
    assert_eq!(
        validate_bounds([0, 0, -1073741824, 0]),
        Err(CoordinateOutOfRange)
    );
}

/// `min_by_key` gives the first of equals and `max_by_key` the last: seen in the
/// places that `Walk::new` takes, on every short list of two points.
#[test]
fn walks_start_at_the_first_least_and_the_last_greatest() {
    let (low, high) = ((0, 0), (3, 1));
    for length in 1..=6u32 {
        for bits in 0..1u32 << length {
            let contour: Vec<Point> = (0..length)
                .map(|i| if bits >> i & 1 == 0 { low } else { high })
                .collect();
            let least = *contour.iter().min_by_key(|p| (p.1, p.0)).unwrap();
            let greatest = *contour.iter().max_by_key(|p| (p.1, p.0)).unwrap();
            let first = contour.iter().position(|&p| p == least).unwrap();
            let last = contour.iter().rposition(|&p| p == greatest).unwrap();

            let walk = reach::begin(&contour, false).unwrap();
            assert_eq!((walk.index, walk.segment), (first, Some((first, last))));
            let reflected = reach::begin(&contour, true).unwrap();
            assert_eq!(
                (reflected.index, reflected.segment),
                (last, Some((last, first)))
            );
        }
    }
}
