//! The Rust crate of bindings/rust, timed as its user calls it, beside the Rust's own
//! calls: the answers' memory is asked for and given back on both sides. Joining and
//! splitting stand twice: on a mesh that was taken before, and with the taking of the
//! Rust's triangles in the time.

use crate::meshes::{cut_renumbered, square, squares};
use crate::pairs::convex;
use crate::timing::{median, timed};
use bezinkwolu::{sum_parts, ConvexSplitStrategy, IntDelaunay, IntRect, PartTable};
use i_triangle::advanced::convex::ConvexSplitStrategy::EarClipping;
use i_triangle::int::expose::{Prepared, PreparedPairs, Record};
use inputs::contours;
use inputs::meshes::{self, Mesh};
use inputs::rng::Rng;
use judge::Contour;
use std::hint::black_box;

/// How many inputs of a kind take turns.
const INPUTS: usize = 64;

/// The corner limit of the splits.
const LIMIT: usize = 4;

type Kind = (&'static str, fn(&mut Rng) -> Mesh);

const KINDS: [Kind; 7] = [
    ("1 triangle", |_| meshes::apart(1)),
    ("2 triangles: a square", |rng| square(rng, 2)),
    ("16 triangles: one polygon", |rng| cut_renumbered(rng, 16)),
    ("128 triangles: one polygon", |rng| cut_renumbered(rng, 128)),
    ("128 triangles: 64 squares", |rng| squares(rng, 128)),
    ("1,024 triangles: one polygon", |rng| {
        cut_renumbered(rng, 1_024)
    }),
    ("1,024 triangles: 512 squares", |rng| squares(rng, 1_024)),
];

pub fn crate_calls(rounds: usize) {
    println!("the Rust crate's time over that of the Rust's own calls, allocation included");
    println!("joining: mesh taken before, with the taking; splitting: the same");
    for (name, kind) in KINDS {
        let mut rng = Rng::new(1);
        let all: Vec<Subject> = (0..INPUTS).map(|_| Subject::of(&kind(&mut rng))).collect();
        println!("{}    {name}", mesh_ratios(&all, rounds));
    }
    println!("sum_parts");
    for (name, left, right, corners) in [
        ("one pair of triangles", 1, 1, 3),
        ("64 by 64 of 8 corners", 64, 64, 8),
    ] {
        println!(
            "{:4.2}    {name}",
            pair_ratio((left, right, corners), rounds)
        );
    }
}

/// A mesh as each side has it.
struct Subject {
    rust: Prepared,
    ours: IntDelaunay,
}

impl Subject {
    fn of(mesh: &Mesh) -> Self {
        let records: Vec<Record> = mesh.iter().map(|t| (t.points, t.neighbours)).collect();
        let rust = Prepared::of(&records);
        let ours: IntDelaunay = rust.triangles().collect();
        let parts = ours.to_convex_polygons().expect("an accepted mesh");
        assert_eq!(parts.len(), rust.parts().len());
        Self { rust, ours }
    }

    fn split(mesh: &IntDelaunay) -> PartTable {
        let split = ConvexSplitStrategy::EarClipping;
        let parts = mesh.to_convex_polygons_with_max_vertices(LIMIT, split);
        parts.expect("an accepted mesh")
    }
}

fn mesh_ratios(all: &[Subject], rounds: usize) -> String {
    // A call on a small mesh is so short that the clock is read but once for some.
    let times = (1_024 / all[0].ours.len()).min(INPUTS);
    let mut taken: [Vec<_>; 6] = Default::default();
    for round in 0..rounds {
        let at = |k: usize| black_box(&all[(round + k) % all.len()]);
        let collected = |k: usize| at(k).rust.triangles().collect::<IntDelaunay>();
        // Each on another mesh: on the same one the second call's branches are learnt.
        taken[0].push(timed(times, |k| at(k).rust.parts()));
        taken[1].push(timed(times, |k| at(k + 10).ours.to_convex_polygons()));
        taken[2].push(timed(times, |k| collected(k + 20).to_convex_polygons()));
        let rust = |k: usize| at(k + 30).rust.split_parts(LIMIT, EarClipping);
        taken[3].push(timed(times, rust));
        taken[4].push(timed(times, |k| Subject::split(&at(k + 40).ours)));
        taken[5].push(timed(times, |k| Subject::split(&collected(k + 50))));
    }
    let [join, joined, all_joined, split, parted, all_parted] = taken.map(median);
    format!(
        "{:5.2} {:5.2}    {:5.2} {:5.2}",
        joined / join,
        all_joined / join,
        parted / split,
        all_parted / split
    )
}

/// Two operands as each side has them.
struct Pairs {
    rust: PreparedPairs,
    ours: [(PartTable, IntRect); 2],
}

impl Pairs {
    fn of(rng: &mut Rng, (left, right, corners): (usize, usize, usize)) -> Self {
        let mut parts = |n| -> Vec<Contour> { (0..n).map(|_| convex(rng, corners)).collect() };
        let sides = [parts(left), parts(right)];
        let bounds = [0, 1].map(|i| contours::bounds(&sides[i].concat()));
        let operand = |i: usize| {
            let [min_x, max_x, min_y, max_y] = bounds[i];
            let table = sides[i].iter().map(|c| c.iter().copied()).collect();
            (table, IntRect::new(min_x, max_x, min_y, max_y))
        };
        Self {
            rust: PreparedPairs::of(&sides[0], bounds[0], &sides[1], bounds[1]),
            ours: [0, 1].map(operand),
        }
    }
}

fn pair_ratio(size: (usize, usize, usize), rounds: usize) -> f64 {
    let mut rng = Rng::new(1);
    let one = size.0 * size.1 == 1;
    let (inputs, times) = if one { (INPUTS, INPUTS) } else { (1, 1) };
    let mut all: Vec<Pairs> = (0..inputs).map(|_| Pairs::of(&mut rng, size)).collect();
    let (mut rust, mut ours) = (Vec::new(), Vec::new());
    for _ in 0..if one { rounds } else { (rounds / 10).max(101) } {
        rust.push(timed(times, |k| all[k].rust.sum_parts()));
        ours.push(timed(times, |k| {
            let [(l, lb), (r, rb)] = black_box(&all[k].ours);
            sum_parts(l, *lb, r, *rb)
        }));
    }
    median(ours) / median(rust)
}
