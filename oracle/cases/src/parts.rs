//! The topic of crate `convex`: the parts of a mesh, beside the Rust's
//! `to_convex_polygons`, each triangle being taken once; and what a call for them
//! refuses, beside the judge.

use crate::antt;
use crate::topic::{layers, Amount, Case, Topic};
use cli::answers::{parts, Cut};
use inputs::mesh_damage::{damaged, ORDER};
use inputs::meshes::{self, Mesh};
use inputs::rng::Rng;
use inputs::rooms;
use inputs::text;
use judge::limits::NONE;
use judge::mesh::{self, area_two, Triangle};
use judge::room::{self, Room, Size};
use judge::{Contour, Fault, Point};

/// The definitions' names, here and in `DECLARATIONS`.
const USES: &str = "\
use Rattle.mesh.specs.Mesh.{Mesh}
use Rattle.convex.specs.Joining.{Region, regions, parts, parts_fault}
use Rattle.integers.specs.Lists.{count}
";

const DECLARATIONS: &str = "
data Case : Type 0 where
  joining_gives : Mesh → List (List Pt) → Case
  refused : Mesh → ℕ → ℕ → ℕ → Case

abbrev taken : List Region → List ℕ
taken [] = []
taken (r ∷ rs) = r.taken ++ taken rs

-- each number below n is in l once
abbrev each : ℕ → List ℕ → Bool
each zero l = true
each (suc n) l = both (eqb (count n l) 1) (each n l)

abbrev once : ℕ → List ℕ → Bool
once n l = both (eqb (length l) n) (each n l)

abbrev holds : Case → Bool
holds (joining_gives m ps) = both (eq_contours (parts m) ps) (once (length m) (taken (regions m)))
holds (refused m starts corners f) = eqb (parts_fault m starts corners) f
";

/// How many triangles a mesh has at the most. The checker's time for a region
/// doubles with each triangle past a dozen.
pub const MOST: usize = 12;

/// Every accepted mesh of up to two triangles on a grid of 2 by 2, and of three
/// with all their links; then random ones of every kind; and room that is enough or
/// not, of good meshes and damaged ones.
pub fn topic(rng: &mut Rng, amount: Amount) -> Topic {
    let count = amount.random;
    let mut all: Vec<Mesh> = amount.some(small()).collect();
    all.extend((0..count / 2).map(|_| good(rng, MOST)));
    let mut cases: Vec<Case> = all.iter().map(joined).collect();
    // room one place short, exact and longer
    for mesh in [Mesh::new(), meshes::apart(1), square()] {
        let answer = parts(&mesh, Cut::None).expect("an accepted mesh");
        for lent in rooms::every(Size::of(&answer)) {
            cases.push(refused(&mesh, &answer, lent));
        }
    }
    for _ in 0..count / 4 {
        let mesh = perhaps_damaged(rng);
        let answer = parts(&mesh, Cut::None).unwrap_or_default();
        let lent = rooms::about(rng, Size::of(&answer));
        cases.push(refused(&mesh, &answer, lent));
    }
    Topic {
        name: "Parts",
        modules: layers::convex(),
        uses: format!("{}{USES}", antt::FIGURES),
        declarations: DECLARATIONS.into(),
        cases,
    }
}

/// Document 01's: two triangles that join.
pub fn square() -> Mesh {
    meshes::linked(&[[(0, 0), (4, 0), (4, 4)], [(0, 0), (4, 4), (0, 4)]])
}

fn joined(mesh: &Mesh) -> Case {
    let answer = parts(mesh, Cut::None).expect("an accepted mesh");
    Case::new(
        format!(
            "joining_gives {} {}",
            antt::mesh(mesh),
            antt::contours(&answer)
        ),
        format!("parts {} is {}", text::mesh(mesh), text::contours(&answer)),
    )
}

fn refused(mesh: &Mesh, answer: &[Contour], lent: Room) -> Case {
    let fault = fault(mesh, answer, lent);
    let Room { starts, numbers } = lent;
    Case::new(
        format!("refused {} {starts} {numbers} {fault}", antt::mesh(mesh)),
        format!(
            "parts_fault {} room {starts} {numbers} is {fault}",
            text::mesh(mesh)
        ),
    )
}

/// The mesh's own fault, then 22 and 21 of its answer.
pub fn fault(mesh: &Mesh, answer: &[Contour], lent: Room) -> Fault {
    match mesh::fault(mesh) {
        0 => room::fault(Size::of(answer), lent),
        fault => fault,
    }
}

/// A good mesh of few triangles, or one with a fault other than 1.
pub fn perhaps_damaged(rng: &mut Rng) -> Mesh {
    let mesh = good(rng, 5);
    match rng.below(3) {
        0 => {
            let one = rng.pick(&ORDER[1..]);
            damaged(rng, &mesh, &[one])
        }
        _ => mesh,
    }
}

/// A random good mesh of at most so many triangles.
pub fn good(rng: &mut Rng, most: usize) -> Mesh {
    loop {
        let mesh = meshes::good(rng, 4 * most);
        if mesh.len() <= most {
            return mesh;
        }
    }
}

/// Every accepted mesh of up to two triangles on a grid of 2 by 2, linked or not,
/// and of three as `linked` links them.
fn small() -> Vec<Mesh> {
    let cell = |n: i32| (n % 2, n / 2);
    let all: Vec<[Point; 3]> = (0..64)
        .map(|n| [cell(n % 4), cell(n / 4 % 4), cell(n / 16)])
        .filter(|&t| area_two(t) > 0)
        .collect();
    let alone = |points: [Point; 3]| Triangle {
        points,
        neighbours: [NONE; 3],
    };
    let mut out = vec![Mesh::new()];
    for &a in &all {
        out.push(vec![alone(a)]);
        for &b in &all {
            let apart = vec![alone(a), alone(b)];
            for i in 0..9 {
                let mut joined = apart.clone();
                joined[0].neighbours[i % 3] = 1;
                joined[1].neighbours[i / 3] = 0;
                if mesh::fault(&joined) == 0 {
                    out.push(joined);
                }
            }
            out.push(apart);
            out.extend(all.iter().map(|&c| meshes::linked(&[a, b, c])));
        }
    }
    out
}
