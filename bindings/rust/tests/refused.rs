//! Each refusal through the safe interface, and what no caller can be expected to check.

use bezinkwolu::*;

const FAR: i32 = (1 << 30) - 1;

/// Three points and three neighbours.
type Given = ([(i32, i32); 3], [usize; 3]);

fn mesh(triangles: &[Given]) -> IntDelaunay {
    triangles.iter().copied().collect()
}

fn table(contours: &[&[(i32, i32)]]) -> PartTable {
    contours.iter().map(|c| c.iter().copied()).collect()
}

fn dart() -> [Given; 2] {
    [
        ([(0, 0), (4, 0), (0, 4)], [1, NIL_INDEX, NIL_INDEX]),
        ([(4, 0), (10, -2), (0, 4)], [NIL_INDEX, 0, NIL_INDEX]),
    ]
}

fn refused(mesh: &IntDelaunay, error: Error) {
    assert_eq!(mesh.check(), Err(error));
    assert_eq!(mesh.to_convex_polygons(), Err(error));
    for strategy in [ConvexSplitStrategy::EarClipping, ConvexSplitStrategy::Fan, ConvexSplitStrategy::Centroid] {
        assert_eq!(mesh.to_convex_polygons_with_max_vertices(3, strategy), Err(error));
    }
}

#[test]
fn each_fault_of_a_mesh() {
    let apart = |n: i32| {
        (0..n)
            .map(|i| ([(3 * i, 0), (3 * i + 1, 0), (3 * i, 1)], [NIL_INDEX; 3]))
            .collect::<IntDelaunay>()
    };
    assert_eq!(apart(1024).to_convex_polygons().map(|t| (t.len(), t.corner_count())), Ok((1024, 3072)));
    refused(&apart(1025), Error::TRIANGLES);
    refused(&apart(5000), Error::TRIANGLES);
    let with = |change: fn(&mut [Given; 2])| {
        let mut dart = dart();
        change(&mut dart);
        mesh(&dart)
    };
    refused(&with(|d| d[1].0[1].0 = FAR + 1), Error::RANGE);
    refused(&with(|d| d[0].1[1] = 2), Error::STRAY);
    refused(&with(|d| d[0].1[1] = 0), Error::STRAY);
    refused(&with(|d| d[1].1[1] = NIL_INDEX), Error::NAMING);
    refused(&with(|d| d[1].0[0].0 = 5), Error::EDGE);
    refused(&with(|d| d[1].0[1] = (2, 2)), Error::FLAT);
    let large = ([(-FAR, -FAR), (FAR, -FAR), (-FAR, FAR)], [NIL_INDEX; 3]);
    refused(&mesh(&[large; 3]), Error::TOTAL);
    assert_eq!(mesh(&[large; 2]).check(), Ok(()));
}

/// Numbers that 32 bits do not hold, and the one that stands for none in the archive.
#[test]
fn neighbours_past_32_bits_are_not_there() {
    for far in [u32::MAX as usize, u32::MAX as usize - 1, 1 << 32, (1 << 32) + 1, usize::MAX - 1] {
        let mut dart = dart();
        dart[0].1[1] = far;
        refused(&mesh(&dart), Error::STRAY);
    }
}

#[test]
fn limits_past_32_bits_split_nothing() {
    let square = mesh(&[
        ([(0, 0), (4, 0), (4, 4)], [NIL_INDEX, 1, NIL_INDEX]),
        ([(0, 0), (4, 4), (0, 4)], [NIL_INDEX, NIL_INDEX, 0]),
    ]);
    let parts = |limit| {
        square
            .to_convex_polygons_with_max_vertices(limit, ConvexSplitStrategy::default())
            .map(|t| t.len())
    };
    assert_eq!([0, 3, 4, usize::MAX, 1 << 32, (1 << 32) + 3].map(parts), [2, 2, 1, 1, 1, 1].map(Ok));
    assert_eq!(
        square.to_convex_polygons_with_max_vertices(4, ConvexSplitStrategy::Fan),
        square.to_convex_polygons()
    );
}

#[test]
fn an_empty_mesh_has_no_parts() {
    let none = IntDelaunay::default();
    assert_eq!(none.to_convex_polygons(), Ok(PartTable::new()));
    assert_eq!(
        none.to_convex_polygons_with_max_vertices(3, ConvexSplitStrategy::Centroid),
        Ok(PartTable::new())
    );
}

fn both(l: &PartTable, lb: IntRect, r: &PartTable, rb: IntRect) -> [Result<PairTable, Error>; 2] {
    [sum_parts(l, lb, r, rb), difference_parts(l, lb, r, rb)]
}

#[test]
fn each_fault_of_an_operand() {
    let k = table(&[&[(0, 0), (2, 0), (0, 2)]]);
    let kb = IntRect::new(0, 2, 0, 2);
    let square = [(-FAR, -FAR), (FAR, -FAR), (FAR, FAR), (-FAR, FAR)];
    let twice = [square, square].concat();
    let wide = IntRect::new(-FAR, FAR, -FAR, FAR);
    let long = vec![(0, 0); 1027];
    for (operand, bounds, error) in [
        (table(&[&long]), kb, Error::RULES),
        (table(&[&[(0, 0), (FAR + 1, 0)]]), wide, Error::RANGE),
        (k.clone(), IntRect::new(0, 1, 0, 2), Error::BOUNDS),
        (k.clone(), IntRect::new(2, 0, 0, 2), Error::BOUNDS),
        (table(&[&twice]), wide, Error::WINDING),
        (PartTable::new(), kb, Error::EMPTY),
    ] {
        for told in both(&operand, bounds, &k, kb).into_iter().chain(both(&k, kb, &operand, bounds)) {
            assert_eq!(told, Err(error));
        }
    }
    assert_eq!(
        both(&k, IntRect::new(-1, FAR, 0, 2), &k, IntRect::new(-1, 2, 0, 2)),
        [Err(Error::RESULT), Err(Error::RESULT)]
    );
    assert!(both(&k, IntRect::new(0, FAR - 2, 0, 2), &k, kb).iter().all(Result::is_ok));
}

/// No memory is asked for that a table past its limits would make endless.
#[test]
fn tables_past_their_limits_are_refused() {
    let many: PartTable = (0..1_000_000).map(|_| [(0, 0)]).collect();
    let zero = IntRect::new(0, 0, 0, 0);
    assert_eq!(both(&many, zero, &many, zero), [Err(Error::RULES), Err(Error::RULES)]);
    assert_eq!(many.to_bytes(), Err(Error::RULES));
    assert_eq!(show_part(&many, &many, Side::Left, 0), Err(Error::RULES));
    assert_eq!(many.contour(999_999).map(|c| c.len()), Some(1));
    assert_eq!(PartTable::from_bytes(&vec![0; 4_000_000]), Err(Error::RULES));
}

/// 2,048 by 2,048 parts of four corners: 4,194,304 contours and 33,554,432 corners of room, of
/// which the points that are told touch little.
#[test]
fn the_largest_operands_are_answered() {
    let most: PartTable = (0..2048).map(|_| [(1, 2); 4]).collect();
    let bounds = IntRect::new(1, 1, 2, 2);
    let sums = sum_parts(&most, bounds, &most, bounds).unwrap();
    assert_eq!((sums.contours().len(), sums.contours().corner_count()), (2048 * 2048, 0));
    assert!(sums.contour(2047, 2047).is_some() && sums.contour(2048, 0).is_none() && sums.contour(0, 2048).is_none());
    assert!(sums.contour(usize::MAX, 2047).is_none());
}

#[test]
fn stored_tables_come_back() {
    for t in [table(&[]), table(&[&[]]), table(&[&[(0, 4), (0, 0), (4, 0)], &[], &[(-5, 7)]])] {
        let bytes = t.to_bytes().unwrap();
        assert_eq!(bytes.len(), 8 + 4 * (t.len() + 1) + 8 * t.corner_count());
        assert_eq!(PartTable::from_bytes(&bytes), Ok(t));
        assert_eq!(PartTable::from_bytes(&bytes[1..]), Err(Error::RULES));
    }
    assert_eq!(table(&[&[(FAR + 1, 0)]]).to_bytes(), Err(Error::RANGE));
    assert_eq!(PartTable::from_bytes(&[]), Err(Error::RULES));
    let mut off = table(&[&[(1, 1)]]).to_bytes().unwrap();
    off[19] = 0x40;
    assert_eq!(PartTable::from_bytes(&off), Err(Error::RANGE));
}

#[test]
fn the_part_shown_is_the_table_itself() {
    let left = table(&[&[(0, 0), (2, 0), (0, 2)], &[(5, 5)]]);
    let right = table(&[&[], &[(7, 8)]]);
    assert_eq!(show_part(&left, &right, Side::Left, 1), Ok(left.contour(1).unwrap()));
    assert_eq!(show_part(&left, &right, Side::Right, 0).map(|c| c.len()), Ok(0));
    assert_eq!(show_part(&left, &right, Side::Right, 1), Ok(right.contour(1).unwrap()));
    for k in [2, u32::MAX as usize, usize::MAX] {
        assert_eq!(show_part(&left, &right, Side::Left, k), Err(Error::PART));
    }
    assert!(left.contour(usize::MAX).is_none() && left.contour(0).unwrap().get(usize::MAX).is_none());
}

#[test]
fn errors_are_errors() {
    let error: Box<dyn std::error::Error> = Box::new(Error::RESULT);
    assert_eq!(error.to_string(), "fault 10: a result bound not strictly between -2^30 and 2^30");
    assert_eq!(
        format!("{:?}", Error::EMPTY),
        "fault 20: an operand without parts, or a walk begun on an empty contour"
    );
}

/// A walk is refused nothing but a step past its end, and a pair's steps are the contour of its
/// sum.
#[test]
fn walks_and_pairs_end() {
    let contours = table(&[
        &[(0, 0), (2, 0), (0, 2)],
        &[(1, 1), (1, 1)],
        &[(0, 0), (3, 0)],
        &[(5, 5)],
        &[(0, 0), (0, 3), (3, 3), (3, 0)],
    ]);
    let bounds = IntRect::new(0, 5, 0, 5);
    let [sums, differences] = both(&contours, bounds, &contours, bounds).map(Result::unwrap);
    for (i, a) in contours.iter().enumerate() {
        let mut walk = Walk::new(a, false).unwrap();
        let begun = walk.point();
        assert!(walk.by_ref().count() <= a.len().max(2) && walk.next().is_none());
        assert_eq!(walk.point(), begun);
        for (j, b) in contours.iter().enumerate() {
            assert!(ConvexSum::new(a, b).unwrap().eq(sums.contour(i, j).unwrap()));
            assert!(ConvexSum::difference(a, b).unwrap().eq(differences.contour(i, j).unwrap()));
        }
    }
}

#[test]
fn all_is_send_and_sync() {
    fn shared<T: Send + Sync>() {}
    shared::<PartTable>();
    shared::<IntDelaunay>();
    shared::<ConvexSum>();
    shared::<Error>();
}
