//! The given Rust on inputs that the judge accepts: it never panics (an overflow
//! would), its parts are strictly convex and keep the mesh's area, and its one
//! refusal is the judge's fault 10.

use cli::answers::{pair_contours, parts, Cut};
use i_triangle::int::{expose, reach};
use inputs::rng::Rng;
use inputs::{contours, coordinates, meshes, operands, pair_damage};
use judge::file::Split::{Centroid, Ear, Fan};
use judge::limits::{CONTOUR, CORNERS, PARTS};
use judge::listing::area_two;
use judge::mesh::total_area_two;
use judge::pairs::{fault, Operation};
use judge::room::Size;
use judge::round::{once_round, strictly_convex};
use judge::table::{self, Table};
use judge::{walk, Contour};
use std::cmp::Ordering;

fn area(parts: &[Contour]) -> i128 {
    parts.iter().map(area_two).sum()
}

fn check_parts(mesh: &meshes::Mesh, limit: u32) {
    let whole = parts(mesh, Cut::None).unwrap();
    assert_eq!(area(&whole), total_area_two(mesh));
    for split in [Ear, Fan, Centroid] {
        let cut = parts(mesh, Cut::Past(limit, split)).unwrap();
        assert!(cut.iter().all(|part| strictly_convex(part)), "{cut:?}");
        assert!(cut.iter().all(|part| part.len() <= limit.max(3) as usize));
        assert_eq!(area(&cut), total_area_two(mesh));
        assert_eq!(table::fault(&Table::of(&cut)), 0);
    }
}

#[test]
fn parts_of_good_meshes() {
    let mut rng = Rng::new(71);
    for _ in 0..1_500 {
        let mesh = meshes::good(&mut rng, 200);
        let limit = rng.pick(&[0, 2, 3, 4, 5, 8, 1_026]);
        check_parts(&mesh, limit);
    }
    for count in [1_023, 1_024] {
        check_parts(&meshes::good_of(&mut rng, count), 4);
    }
}

#[test]
fn parts_of_every_small_mesh_that_is_accepted() {
    let mut accepted = 0;
    let count = meshes::small_count(2, 2);
    for number in 0..count {
        let mesh = meshes::small_at(2, 2, number);
        if judge::mesh::fault(&mesh) == 0 {
            accepted += 1;
            check_parts(&mesh, 3);
        }
    }
    assert!(accepted > 0);
}

/// Readings, document 01, point 11.
#[test]
fn the_largest_parts_table() {
    let one = meshes::linked(&[[(0, 0), (4, 0), (4, 4)], [(0, 0), (4, 4), (0, 4)]]);
    let mut rng = Rng::new(72);
    let squares = meshes::copies(&mut rng, &one, 512);
    let cut = parts(&squares, Cut::Past(3, Centroid)).unwrap();
    assert_eq!(
        Size::of(&cut),
        Size {
            parts: 2_048,
            corners: 6_144
        }
    );
    assert!(cut.len() <= PARTS && Size::of(&cut).corners <= CORNERS);
}

/// A mesh of 1,024 triangles in one region has 1,026 corners at most.
#[test]
fn the_largest_contour() {
    let mut rng = Rng::new(73);
    let contour = contours::convex(&mut rng, CONTOUR, coordinates::EDGE);
    let mesh = meshes::linked(&meshes::polygon(&mut rng, &contour));
    let whole = parts(&mesh, Cut::None).unwrap();
    assert_eq!(whole.len(), 1);
    assert_eq!(whole[0].len(), contour.len());
    check_parts(&mesh, 7);
}

/// Document 01: fan where the doubled area exceeds 3,074,457,345,618,258,602.
#[test]
fn the_centroid_split_up_to_its_largest_area() {
    let mut rng = Rng::new(77);
    for than in [Ordering::Less, Ordering::Equal, Ordering::Greater] {
        let mesh = meshes::centroid_limit(&mut rng, than);
        let (fan, centroid) = (Cut::Past(3, Fan), Cut::Past(3, Centroid));
        assert_eq!(parts(&mesh, fan) == parts(&mesh, centroid), than.is_gt());
        check_parts(&mesh, 3);
    }
}

/// Demand 3, of every two small contours that go once round: the pair's contour
/// is strictly convex, and its reach is the two reaches added.
#[test]
fn every_pair_of_small_contours() {
    let all: Vec<Contour> = contours::small(2, 4).collect();
    let mut round_ones = 0;
    for a in &all {
        for b in &all {
            let turned: Contour = b.iter().map(|p| (-p.0, -p.1)).collect();
            for (operation, second) in [
                (expose::Operation::Sum, b),
                (expose::Operation::Difference, &turned),
            ] {
                let Some(contour) = expose::one_pair(operation, a, b) else {
                    assert!(a.is_empty() || b.is_empty());
                    continue;
                };
                assert!(contour.len() <= a.len() + b.len());
                if once_round(a) && once_round(b) {
                    round_ones += 1;
                    assert!(strictly_convex(&contour));
                    for d in (-2..=2).flat_map(|u| (-2..=2).map(move |v| (u, v))) {
                        assert_eq!(reach_in(&contour, d), reach_in(a, d) + reach_in(second, d));
                    }
                }
            }
        }
    }
    assert!(round_ones > 1_000);
}

fn reach_in(contour: &Contour, (u, v): (i32, i32)) -> i32 {
    contour.iter().map(|(x, y)| u * x + v * y).max().unwrap()
}

#[test]
fn pairs_that_are_accepted() {
    let mut rng = Rng::new(74);
    for _ in 0..3_000 {
        let pair = operands::good(&mut rng, 3, 12);
        let found = pair_contours(pair.operation, &pair.left, &pair.right).unwrap();
        let (left, right) = (pair.left.table.contours(), pair.right.table.contours());
        assert_eq!(found.len(), left.len() * right.len());
        for (i, contour) in found.iter().enumerate() {
            let (a, b) = (&left[i / right.len()], &right[i % right.len()]);
            assert!(contour.len() <= a.len() + b.len());
            if once_round(a) && once_round(b) {
                assert!(strictly_convex(contour), "{a:?} {b:?} {contour:?}");
            }
        }
    }
}

#[test]
fn the_rusts_own_refusal_is_fault_10() {
    let mut rng = Rng::new(75);
    let mut refused = 0;
    for _ in 0..2_000 {
        let good = operands::good(&mut rng, 2, 6);
        let faults: &[u32] = if rng.once_in(2) { &[10] } else { &[] };
        let pair = pair_damage::damaged(&mut rng, &good, faults);
        let operation = match pair.operation {
            Operation::Sum => expose::Operation::Sum,
            Operation::Difference => expose::Operation::Difference,
        };
        let rust = expose::pairs(
            operation,
            &pair.left.table.contours(),
            pair.left.bounds,
            &pair.right.table.contours(),
            pair.right.bounds,
        );
        let judged = fault(pair.operation, &pair.left, &pair.right);
        assert_eq!(rust.is_err(), judged == 10);
        refused += usize::from(judged == 10);
    }
    assert!(refused > 500);
}

/// The judge's start, winding and next place, beside the Rust's walk.
#[test]
fn walks_begin_where_the_judge_says() {
    let mut rng = Rng::new(76);
    let small = contours::small(2, 5);
    let random: Vec<Contour> = (0..3_000)
        .map(|_| contours::any(&mut rng, 12, 50))
        .collect();
    for contour in small.chain(random) {
        for reflected in [false, true] {
            let begun = reach::begin(&contour, reflected);
            assert_eq!(begun.map(|p| p.index), walk::start(&contour, reflected));
            let Some(place) = begun else { continue };
            let winding = walk::winding(&contour, reflected);
            assert_eq!(place.reverse, winding < 0);
            assert_eq!(place.segment.is_some(), winding == 0);
            if place.remaining > 0 {
                let at = walk::Place {
                    index: place.index,
                    reverse: place.reverse,
                    remaining: place.remaining,
                    reflected: place.reflected,
                    segment: place.segment,
                };
                let next = reach::advanced(&contour, place).index;
                assert_eq!(next, walk::next_place(contour.len(), at));
            }
        }
    }
}
