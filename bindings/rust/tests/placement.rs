//! Where places lie by pair results: each answer and refusal, and differences of meshes beside
//! their triangles, tried pair by pair.

use bezinkwolu::*;

const FAR: i32 = (1 << 30) - 1;

type Point = (i32, i32);
type Triangle = [Point; 3];

/// Left less right, with bounds that no corner here is outside of.
fn differences(left: &PartTable, right: &PartTable) -> PairTable {
    let wide = IntRect::new(-1000, 1000, -1000, 1000);
    difference_parts(left, wide, right, wide).unwrap()
}

fn one(contour: &[Point]) -> PartTable {
    [contour.iter().copied()].into_iter().collect()
}

fn square() -> PartTable {
    one(&[(0, 0), (4, 0), (4, 4), (0, 4)])
}

fn placed(pairs: &PairTable, places: &[Point], placement: Placement) {
    for &(x, y) in places {
        assert_eq!(pairs.placement(x, y), Ok(placement), "({x}, {y})");
    }
}

#[test]
fn two_squares() {
    let pairs = differences(&square(), &square());
    placed(&pairs, &[(0, 0), (3, 3), (-3, 0)], Placement::Overlapping);
    placed(&pairs, &[(4, 1), (-4, 0), (0, 4), (4, 4), (-4, 4)], Placement::Touching);
    placed(&pairs, &[(5, 0), (4, 5), (-5, 4), (FAR, FAR), (-FAR, -FAR)], Placement::Apart);
}

/// A segment has a rim alone, and ends where its corners do.
#[test]
fn a_segment_and_a_point() {
    let pairs = differences(&one(&[(0, 0), (4, 2)]), &one(&[(0, 0)]));
    placed(&pairs, &[(0, 0), (2, 1), (4, 2)], Placement::Touching);
    placed(&pairs, &[(6, 3), (-2, -1), (2, 0), (2, 2)], Placement::Apart);
}

/// Two points emit nothing, so that there is nothing to touch.
#[test]
fn an_empty_contour_covers_nothing() {
    let pairs = differences(&one(&[(1, 1)]), &one(&[(1, 1)]));
    assert_eq!(pairs.contours().corner_count(), 0);
    placed(&pairs, &[(0, 0), (1, 1)], Placement::Apart);
}

/// On the rim of one contour and strictly inside another it overlaps; on the rim of two it touches.
#[test]
fn one_contour_of_several_is_enough() {
    let origin = one(&[(0, 0)]);
    let mut left = square();
    left.push([(4, 0), (8, 0), (8, 4), (4, 4)]);
    placed(&differences(&left, &origin), &[(4, 2)], Placement::Touching);
    left.push([(3, 1), (5, 1), (5, 3), (3, 3)]);
    placed(&differences(&left, &origin), &[(4, 2)], Placement::Overlapping);
}

#[test]
fn a_place_out_of_range_is_refused() {
    let pairs = differences(&square(), &square());
    for off in [FAR + 1, -FAR - 1, i32::MAX, i32::MIN] {
        assert_eq!(pairs.placement(off, 0), Err(Error::RANGE));
        assert_eq!(pairs.placement(0, off), Err(Error::RANGE));
    }
}

/// 10,000 contours and 40,000 corners, past what a part table may have.
#[test]
fn the_limits_of_a_part_table_do_not_bind() {
    let row: PartTable = (0..100).map(|i| [(9 * i, 0), (9 * i + 4, 0), (9 * i + 4, 4), (9 * i, 4)]).collect();
    let pairs = differences(&row, &row);
    assert_eq!((pairs.contours().len(), pairs.contours().corner_count()), (10_000, 40_000));
    placed(&pairs, &[(0, 0), (894, 0)], Placement::Overlapping);
    placed(&pairs, &[(895, 0), (0, 4)], Placement::Touching);
    placed(&pairs, &[(896, 0), (0, 5)], Placement::Apart);
}

/// How b, moved by z, lies by a: an edge of one of them, if any, has the other on its right, at
/// most touching it or wholly past it.
fn triangles_placed(a: Triangle, b: Triangle, z: Point) -> Placement {
    let b = b.map(|p| (p.0 + z.0, p.1 + z.1));
    let beyond = |of: Triangle, other: Triangle| {
        (0..3).map(move |i| {
            let (p, q) = (of[i], of[(i + 1) % 3]);
            let side = |r: Point| (q.0 - p.0) * (r.1 - p.1) - (q.1 - p.1) * (r.0 - p.0);
            other.map(side).into_iter().max().unwrap()
        })
    };
    match beyond(a, b).chain(beyond(b, a)).min().unwrap() {
        ..=-1 => Placement::Apart,
        0 => Placement::Touching,
        1.. => Placement::Overlapping,
    }
}

/// The same of meshes.
fn meshes_placed(left: &[Triangle], right: &[Triangle], z: Point) -> Placement {
    let each = left.iter().flat_map(|&a| right.iter().map(move |&b| triangles_placed(a, b, z)));
    each.max_by_key(|placement| *placement as u32).unwrap()
}

/// A mesh's parts, whole and split.
fn parts(mesh: &[(Triangle, [usize; 3])]) -> Vec<PartTable> {
    let mesh: IntDelaunay = mesh.iter().copied().collect();
    let splits = [ConvexSplitStrategy::EarClipping, ConvexSplitStrategy::Fan, ConvexSplitStrategy::Centroid];
    let split = splits.map(|s| mesh.to_convex_polygons_with_max_vertices(3, s));
    split.into_iter().chain([mesh.to_convex_polygons()]).map(Result::unwrap).collect()
}

#[test]
fn differences_of_meshes_say_how_the_meshes_lie() {
    let meshes = [
        [
            ([(0, 0), (4, 0), (0, 4)], [1, NIL_INDEX, NIL_INDEX]),
            ([(4, 0), (10, -2), (0, 4)], [NIL_INDEX, 0, NIL_INDEX]),
        ],
        [
            ([(0, 0), (4, 0), (4, 4)], [NIL_INDEX, 1, NIL_INDEX]),
            ([(0, 0), (4, 4), (0, 4)], [NIL_INDEX, NIL_INDEX, 0]),
        ],
    ];
    let places = || (-12..=12).flat_map(|x| (-12..=12).map(move |y| (x, y)));
    for (l, r) in [(0, 0), (0, 1), (1, 0), (1, 1)] {
        let [left, right] = [l, r].map(|i: usize| meshes[i].map(|t| t.0));
        let mut met = [0; 3];
        let (left_parts, right_parts) = (parts(&meshes[l]), parts(&meshes[r]));
        let each = left_parts.iter().flat_map(|a| right_parts.iter().map(move |b| differences(a, b)));
        let each: Vec<PairTable> = each.collect();
        for (x, y) in places() {
            let placement = meshes_placed(&left, &right, (x, y));
            met[placement as usize] += 1;
            for pairs in &each {
                assert_eq!(pairs.placement(x, y), Ok(placement), "meshes {l} and {r}, ({x}, {y})");
            }
        }
        assert!(met.iter().all(|count| *count > 0), "{met:?}");
    }
}
