//! The topic of crate `mesh`: a mesh's first fault, beside the judge.

use crate::antt;
use crate::topic::{layers, Amount, Case, Topic};
use inputs::coordinates::EDGE;
use inputs::mesh_damage::{damaged, ORDER};
use inputs::meshes::{self, Mesh};
use inputs::rng::Rng;
use inputs::text;
use judge::limits::{NONE, TRIANGLES};
use judge::mesh::{fault, Triangle};
use judge::Point;

/// The definitions' names, here and in `DECLARATIONS`.
const USES: &str = "\
use Rattle.mesh.specs.Mesh.{Mesh, mesh_kinds}
use Rattle.integers.specs.Faults.{first_fault}
";

const DECLARATIONS: &str = "
data Case : Type 0 where
  faulted : Mesh → ℕ → Case

abbrev holds : Case → Bool
holds (faulted m f) = eqb (first_fault (mesh_kinds m)) f
";

/// A mesh is damaged in some thirty ways, so there are so many fewer of them.
const WAYS: usize = 40;

/// Every mesh of one triangle on a grid of 2 by 2, with neighbours none, itself or
/// past; numbers and areas at their limits, 1,024 triangles with neighbours too;
/// meshes of two and three triangles on that grid; and good meshes as they are,
/// with each fault and with every two.
pub fn topic(rng: &mut Rng, amount: Amount) -> Topic {
    let count = amount.random;
    let small = amount.some(0..meshes::small_count(1, 2));
    let mut all: Vec<Mesh> = small.map(|n| meshes::small_at(1, 2, n)).collect();
    all.extend(limits(rng));
    if amount.every == 1 {
        all.push(meshes::good_of(rng, TRIANGLES));
    }
    for _ in 0..count / 2 {
        for triangles in [2, 3] {
            let number = rng.word() % meshes::small_count(triangles, 2);
            all.push(meshes::small_at(triangles, 2, number));
        }
    }
    for _ in 0..count.div_ceil(WAYS) {
        let good = meshes::good(rng, 20);
        for (i, &a) in ORDER.iter().enumerate() {
            all.extend(ORDER[i..].iter().map(|&b| damaged(rng, &good, &[a, b])));
        }
        all.push(good);
    }
    Topic {
        name: "Mesh",
        modules: layers::mesh(),
        uses: format!("{}{USES}", antt::FIGURES),
        declarations: DECLARATIONS.into(),
        cases: all.iter().map(faulted).collect(),
    }
}

/// Document 01's limits: numbers of triangles (1), coordinates (2), neighbours (3), areas
/// (6, 11), each one below, at and one beyond.
fn limits(rng: &mut Rng) -> Vec<Mesh> {
    let mut all = vec![Mesh::new()];
    for many in [TRIANGLES - 1, TRIANGLES, TRIANGLES + 1] {
        all.push(meshes::apart(many));
    }
    for one_more in [false, true] {
        all.push(meshes::area_limit(rng, one_more));
    }
    let alone = |points: [Point; 3], neighbours: [u32; 3]| vec![Triangle { points, neighbours }];
    for z in [EDGE - 1, EDGE, EDGE + 1] {
        all.push(alone([(0, 0), (z, 0), (0, 1)], [NONE; 3]));
        all.push(alone([(0, 0), (1, 0), (0, z)], [NONE; 3]));
        all.push(alone([(0, 0), (-z, 0), (0, -1)], [NONE; 3]));
        all.push(alone([(0, 0), (-1, 0), (0, -z)], [NONE; 3]));
    }
    for neighbour in [0, 1, 2, NONE - 1, NONE] {
        all.push(alone([(0, 0), (1, 0), (0, 1)], [neighbour, NONE, NONE]));
        let mut two = meshes::linked(&[[(0, 0), (1, 0), (0, 1)], [(1, 0), (1, 1), (0, 1)]]);
        two[1].neighbours[0] = neighbour;
        all.push(two);
    }
    // doubled areas of 1, 0 and -1
    all.extend([1, 0, -1].map(|y| alone([(0, 0), (1, 0), (1, y)], [NONE; 3])));
    all
}

fn faulted(mesh: &Mesh) -> Case {
    let fault = fault(mesh);
    Case::new(
        format!("faulted {} {fault}", antt::mesh(mesh)),
        format!("mesh_kinds {} is {fault}", text::mesh(mesh)),
    )
}
