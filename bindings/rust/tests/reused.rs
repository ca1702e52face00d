//! Tables whose memory is used again, and what is read back of a mesh and of a pair result.

use bezinkwolu::*;

fn table(contours: &[&[(i32, i32)]]) -> PartTable {
    contours.iter().map(|c| c.iter().copied()).collect()
}

fn square() -> IntDelaunay {
    [
        ([(0, 0), (4, 0), (4, 4)], [NIL_INDEX, 1, NIL_INDEX]),
        ([(0, 0), (4, 4), (0, 4)], [NIL_INDEX, NIL_INDEX, 0]),
    ]
    .into_iter()
    .collect()
}

fn flat() -> IntDelaunay {
    [([(0, 0), (2, 0), (4, 0)], [NIL_INDEX; 3])].into_iter().collect()
}

/// Longer before, shorter before, and refused: the answer is that of the call that makes a new
/// table, or the table is as it was.
#[test]
fn a_table_filled_again() {
    let many: IntDelaunay = (0..40).map(|i| ([(3 * i, 0), (3 * i + 1, 0), (3 * i, 1)], [NIL_INDEX; 3])).collect();
    let mut parts = PartTable::new();
    for mesh in [&square(), &many, &square(), &IntDelaunay::default()] {
        mesh.to_convex_polygons_into(&mut parts).unwrap();
        assert_eq!(Ok(&parts), mesh.to_convex_polygons().as_ref());
        for strategy in [ConvexSplitStrategy::EarClipping, ConvexSplitStrategy::Fan, ConvexSplitStrategy::Centroid] {
            mesh.to_convex_polygons_with_max_vertices_into(3, strategy, &mut parts).unwrap();
            assert_eq!(Ok(&parts), mesh.to_convex_polygons_with_max_vertices(3, strategy).as_ref());
        }
    }
    square().to_convex_polygons_into(&mut parts).unwrap();
    let before = parts.clone();
    assert_eq!(flat().to_convex_polygons_into(&mut parts), Err(Error::FLAT));
    assert_eq!(
        flat().to_convex_polygons_with_max_vertices_into(3, ConvexSplitStrategy::Fan, &mut parts),
        Err(Error::FLAT)
    );
    assert_eq!(parts, before);
}

#[test]
fn pairs_filled_again() {
    let one = table(&[&[(0, 0), (2, 0), (0, 2)]]);
    let three = table(&[&[(0, 0), (2, 0), (0, 2)], &[(1, 1)], &[(0, 0), (2, 0), (2, 2), (0, 2)]]);
    let bbox = IntRect::new(0, 2, 0, 2);
    let mut pairs = PairTable::default();
    for (lhs, rhs) in [(&one, &one), (&three, &one), (&three, &three), (&one, &three)] {
        sum_parts_into(lhs, bbox, rhs, bbox, &mut pairs).unwrap();
        assert_eq!(Ok(&pairs), sum_parts(lhs, bbox, rhs, bbox).as_ref());
        difference_parts_into(lhs, bbox, rhs, bbox, &mut pairs).unwrap();
        assert_eq!(Ok(&pairs), difference_parts(lhs, bbox, rhs, bbox).as_ref());
    }
    let before = pairs.clone();
    assert_eq!(sum_parts_into(&one, IntRect::new(0, 1, 0, 1), &three, bbox, &mut pairs), Err(Error::BOUNDS));
    assert_eq!(difference_parts_into(&one, bbox, &PartTable::new(), bbox, &mut pairs), Err(Error::EMPTY));
    assert_eq!(pairs, before);
}

/// Row by row, each contour with the numbers that `contour` takes.
#[test]
fn pairs_with_their_numbers() {
    let two = table(&[&[(0, 0), (2, 0), (0, 2)], &[(1, 1)]]);
    let three = table(&[&[(0, 0), (2, 0), (0, 2)], &[(1, 1)], &[(0, 0), (2, 0), (2, 2), (0, 2)]]);
    let bbox = IntRect::new(0, 2, 0, 2);
    let pairs = sum_parts(&two, bbox, &three, bbox).unwrap();
    let numbers: Vec<_> = pairs.iter().map(|(i, j, _)| (i, j)).collect();
    assert_eq!(numbers, [(0, 0), (0, 1), (0, 2), (1, 0), (1, 1), (1, 2)]);
    assert_eq!(pairs.iter().len(), 6);
    for (i, j, contour) in &pairs {
        assert_eq!(Some(contour), pairs.contour(i, j));
    }
    assert_eq!(PairTable::new().iter().next().map(|(i, j, _)| (i, j)), None);
}

/// Triangles come back as they were given; a neighbour that 32 bits do not hold comes back as
/// another that is in no mesh.
#[test]
fn triangles_read_back() {
    let mesh = square();
    assert_eq!(mesh.iter().len(), 2);
    assert_eq!(mesh.iter().collect::<IntDelaunay>(), mesh);
    assert_eq!(mesh.triangle(1).unwrap().neighbors, [NIL_INDEX, NIL_INDEX, 0]);
    assert_eq!(mesh.iter().next_back(), mesh.triangle(1));
    assert_eq!(mesh.triangle(2), None);
    let far: IntDelaunay = [([(0, 0), (2, 0), (0, 2)], [usize::MAX - 7, NIL_INDEX, 5])].into_iter().collect();
    let back = far.triangle(0).unwrap().neighbors;
    assert_eq!((back[1], back[2]), (NIL_INDEX, 5));
    assert!(back[0] > 1024 && back[0] != NIL_INDEX);
    assert_eq!(far.iter().collect::<IntDelaunay>().check(), far.check());
}
