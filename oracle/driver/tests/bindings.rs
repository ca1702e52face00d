//! The Rust crate of bindings/rust beside the given Rust, through its safe interface, on
//! random meshes and operands: parts, splits and pair contours are the Rust's, and
//! refusals the judge's; and on random paths, whose corners are the judge's.

use bezinkwolu::{
    difference_parts, import_path, sum_parts, Contour, ConvexSplitStrategy, ConvexSum, Error,
    Frame, IntDelaunay, IntRect, PartTable, PathItem, NIL_INDEX,
};
use i_triangle::advanced::convex::ConvexSplitStrategy as Given;
use i_triangle::int::expose::{self, Record};
use inputs::meshes::Mesh;
use inputs::operands::Pair;
use inputs::rng::Rng;
use inputs::{mesh_damage, meshes, operands, pair_damage, paths};
use judge::pairs::{Operand, Operation};
use judge::path::{imported, Item};

const SPLITS: [(ConvexSplitStrategy, Given); 3] = [
    (ConvexSplitStrategy::EarClipping, Given::EarClipping),
    (ConvexSplitStrategy::Fan, Given::Fan),
    (ConvexSplitStrategy::Centroid, Given::Centroid),
];

type Plain = Vec<Vec<(i32, i32)>>;

fn plain(table: &PartTable) -> Plain {
    table.iter().map(points).collect()
}

fn points(contour: Contour) -> Vec<(i32, i32)> {
    contour.iter().map(<(i32, i32)>::from).collect()
}

/// As one does with iTriangle's own triangles.
fn taken(mesh: &Mesh) -> IntDelaunay {
    let index = |n| match n {
        u32::MAX => NIL_INDEX,
        n => n as usize,
    };
    mesh.iter()
        .map(|t| (t.points, t.neighbours.map(index)))
        .collect()
}

/// What the crate says, as the judge's fault or the Rust's contours.
fn told(answer: Result<PartTable, Error>) -> Result<Plain, u32> {
    match answer {
        Ok(table) => Ok(plain(&table)),
        Err(error) => Err(error.number()),
    }
}

fn one_mesh(rng: &mut Rng, mesh: &Mesh) -> bool {
    let ours = taken(mesh);
    let fault = judge::mesh::fault(mesh);
    let limit = rng.pick(&[0, 3, 4, 5, 8, 1_025, usize::MAX]);
    let (split, given) = rng.pick(&SPLITS);
    let joined = told(ours.to_convex_polygons());
    let parted = told(ours.to_convex_polygons_with_max_vertices(limit, split));
    if fault != 0 {
        assert_eq!((&joined, &parted), (&Err(fault), &Err(fault)), "{mesh:?}");
        return false;
    }
    let records: Vec<Record> = mesh.iter().map(|t| (t.points, t.neighbours)).collect();
    assert_eq!(joined, Ok(expose::parts(&records)), "{mesh:?}");
    let theirs = expose::split_parts(&records, limit, given);
    assert_eq!(parted, Ok(theirs), "{limit} {split:?} {mesh:?}");
    true
}

#[test]
fn parts_and_splits_are_the_rusts() {
    let mut rng = Rng::new(18);
    let mut accepted = 0;
    for round in 0..20_000 {
        let mesh = match round % 100 {
            0 => meshes::large(&mut rng),
            _ => meshes::good(&mut rng, 60),
        };
        accepted += usize::from(one_mesh(&mut rng, &mesh));
        let fault = rng.pick(&mesh_damage::ORDER);
        let damaged = mesh_damage::damaged(&mut rng, &mesh, &[fault]);
        one_mesh(&mut rng, &damaged);
    }
    assert_eq!(accepted, 20_000);
}

fn operand(operand: &Operand) -> (PartTable, IntRect) {
    let [min_x, max_x, min_y, max_y] = operand.bounds;
    let table = operand.table.contours().into_iter().collect();
    (table, IntRect::new(min_x, max_x, min_y, max_y))
}

fn one_pair(pair: &Pair) -> bool {
    let Pair {
        operation,
        left,
        right,
    } = pair;
    let ((l, lb), (r, rb)) = (operand(left), operand(right));
    let answer = match operation {
        Operation::Sum => sum_parts(&l, lb, &r, rb),
        Operation::Difference => difference_parts(&l, lb, &r, rb),
    };
    let fault = judge::pairs::fault(*operation, left, right);
    let Ok(pairs) = answer else {
        assert_eq!(answer.map_err(Error::number).err(), Some(fault), "{pair:?}");
        return false;
    };
    let asked = match operation {
        Operation::Sum => expose::Operation::Sum,
        Operation::Difference => expose::Operation::Difference,
    };
    let (lc, rc) = (left.table.contours(), right.table.contours());
    let theirs = expose::pairs(asked, &lc, left.bounds, &rc, right.bounds);
    let theirs = theirs.expect("the judge accepted it");
    assert_eq!((fault, plain(pairs.contours())), (0, theirs), "{pair:?}");
    let bounds = judge::pairs::result_bounds(*operation, left.bounds, right.bounds);
    let b = pairs.bbox();
    assert_eq!([b.min_x, b.max_x, b.min_y, b.max_y].map(i64::from), bounds);
    stepped(*operation, &l, &r, &pairs);
    true
}

/// A pair's steps, by the iterator, are its contour.
fn stepped(operation: Operation, l: &PartTable, r: &PartTable, pairs: &bezinkwolu::PairTable) {
    let (i, j) = (l.len() - 1, r.len() / 2);
    let (Some(a), Some(b)) = (l.contour(i), r.contour(j)) else {
        panic!("there are such parts");
    };
    let sum = match operation {
        Operation::Sum => ConvexSum::new(a, b),
        Operation::Difference => ConvexSum::difference(a, b),
    };
    let contour = pairs.contour(i, j).expect("there is such a pair");
    match sum {
        Ok(sum) => assert!(sum.eq(contour)),
        Err(error) => {
            assert_eq!(error, Error::EMPTY);
            assert!(a.is_empty() || b.is_empty());
            assert!(contour.is_empty());
        }
    }
}

#[test]
fn pairs_are_the_rusts() {
    let mut rng = Rng::new(18);
    let mut accepted = 0;
    for _ in 0..20_000 {
        let pair = operands::good(&mut rng, 6, 12);
        accepted += usize::from(one_pair(&pair));
        // a table that breaks the rules cannot be made from contours, but for its limits
        let fault = rng.pick(&pair_damage::ORDER[1..]);
        one_pair(&pair_damage::damaged(&mut rng, &pair, &[fault]));
    }
    assert_eq!(accepted, 20_000);
    for past in [-1, 0, 1] {
        let parts = operands::at_limit(&mut rng, past);
        let table: PartTable = parts.iter().map(|c| c.iter().copied()).collect();
        let one: PartTable = [[(0, 0)]].into_iter().collect();
        let wide = IntRect::new(-(1 << 29), 1 << 29, -(1 << 29), 1 << 29);
        let answer = sum_parts(&table, wide, &one, IntRect::new(0, 0, 0, 0));
        assert_eq!(answer.as_ref().err() == Some(&Error::RULES), past > 0);
    }
}

/// An item of a kind that there is.
fn path_item(item: &Item) -> Option<PathItem> {
    let (x, y) = (f64::from_bits(item.x), f64::from_bits(item.y));
    Some(match item.kind {
        judge::path::MOVE => PathItem::Move(x, y),
        judge::path::LINE => PathItem::Line(x, y),
        judge::path::HORIZONTAL => PathItem::Horizontal(x),
        judge::path::VERTICAL => PathItem::Vertical(y),
        judge::path::RELATIVE_LINE => PathItem::RelativeLine(x, y),
        judge::path::CLOSE => PathItem::Close,
        _ => return None,
    })
}

/// The crate has room for every path, so 21 is never told.
#[test]
fn paths_are_the_judges() {
    let mut rng = Rng::new(18);
    let (mut accepted, mut refused) = (0, 0);
    while accepted + refused < 40_000 {
        let paths::Import { path, frame, .. } = paths::any(&mut rng);
        let Some(items) = path.iter().map(path_item).collect::<Option<Vec<_>>>() else {
            continue;
        };
        let [x, y, steps] = [frame.x, frame.y, frame.steps].map(f64::from_bits);
        let ours = import_path(&items, Frame::new(x, y, steps))
            .map(|corners| corners.into_iter().map(<(i32, i32)>::from).collect())
            .map_err(Error::number);
        let theirs = imported(&path, &frame, usize::MAX);
        assert_eq!(ours, theirs, "{items:?} {frame:?}");
        match theirs {
            Ok(_) => accepted += 1,
            Err(_) => refused += 1,
        }
    }
    assert!(
        accepted > 10_000 && refused > 10_000,
        "{accepted} {refused}"
    );
}
