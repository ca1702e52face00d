//! The topic of crate `split`: the parts of a mesh for a limit and a split, beside
//! the Rust's `to_convex_polygons_with_max_vertices`; the splits of one contour,
//! beside the same of a mesh whose one region it is; and what a call refuses.

use crate::antt;
use crate::parts::{fault, good, perhaps_damaged, square, MOST};
use crate::topic::{layers, Amount, Case, Topic};
use cli::answers::{parts, Cut};
use inputs::meshes::{self, Mesh};
use inputs::rng::Rng;
use inputs::text;
use inputs::{contours, coordinates, rooms};
use judge::file::Split::{self, Centroid, Ear, Fan};
use judge::room::{Room, Size};
use judge::{Contour, Point};
use std::cmp::Ordering;

/// The definitions' names, here and in `DECLARATIONS`.
const USES: &str = "\
use Rattle.mesh.specs.Mesh.{Mesh}
use Rattle.split.specs.declared.ConvexSplitStrategy.{ConvexSplitStrategy}
use Rattle.split.specs.declared.ConvexSplitStrategy.TheVariants.{EarClipping, Fan, Centroid}
use Rattle.split.specs.Splitting.{split_contour, split_parts, split_fault}
";

const DECLARATIONS: &str = "
data Case : Type 0 where
  mesh_gives : ConvexSplitStrategy → ℕ → Mesh → List (List Pt) → Case
  contour_gives : ConvexSplitStrategy → ℕ → List Pt → List (List Pt) → Case
  refused : ConvexSplitStrategy → ℕ → Mesh → ℕ → ℕ → ℕ → Case

abbrev holds : Case → Bool
holds (mesh_gives how limit m ps) = eq_contours (split_parts how limit m) ps
holds (contour_gives how limit l ps) = eq_contours (split_contour how limit l) ps
holds (refused how limit m starts corners f) = eqb (split_fault how limit m starts corners) f
";

const SPLITS: [Split; 3] = [Ear, Fan, Centroid];

/// How many corners a random contour has at the most, and what limits are tried of
/// a mesh.
const CORNERS: usize = 14;
const LIMITS: usize = 9;

/// Contours known to matter at every limit, then random ones; random meshes; and
/// room that is enough or not, of good meshes and damaged ones.
pub fn topic(rng: &mut Rng, amount: Amount) -> Topic {
    let count = amount.random;
    let mut cases = limits();
    for contour in amount.some(contours::worth_splitting()) {
        for limit in 3..=contour.len() as u32 {
            cases.extend(SPLITS.map(|how| of_contour(how, limit, &contour)));
        }
    }
    for _ in 0..count / 2 {
        let contour = convex(rng);
        for how in SPLITS {
            let limit = 3 + rng.below(contour.len() - 1) as u32;
            cases.push(of_contour(how, limit, &contour));
        }
    }
    for _ in 0..count / 3 {
        let mesh = good(rng, MOST);
        for how in SPLITS {
            let limit = rng.below(LIMITS) as u32;
            cases.push(of_mesh(how, limit, &mesh));
        }
    }
    for _ in 0..count / 4 {
        let (how, limit) = (rng.pick(&SPLITS), rng.below(LIMITS) as u32);
        let mesh = perhaps_damaged(rng);
        let answer = parts(&mesh, Cut::Past(limit, how)).unwrap_or_default();
        let lent = rooms::about(rng, Size::of(&answer));
        cases.push(refused(how, limit, &mesh, &answer, lent));
    }
    Topic {
        name: "Splits",
        modules: layers::split(),
        uses: format!("{}{USES}", antt::FIGURES),
        declarations: DECLARATIONS.into(),
        cases,
    }
}

/// Limits raised to 3, and about the corner count; the doubled area to which the centroid
/// split goes, one below and one beyond; halves of either sign; room one place short,
/// exact and longer.
fn limits() -> Vec<Case> {
    let mut cases = Vec::new();
    for limit in 0..=5 {
        cases.extend(SPLITS.map(|how| of_mesh(how, limit, &square())));
    }
    let at = [Ordering::Less, Ordering::Equal, Ordering::Greater].map(contours::centroid_limit);
    cases.extend(at.iter().map(|contour| of_contour(Centroid, 3, contour)));
    // the centre of a square of side 3 stands at halves
    let halves = [(0, 0), (3, 0), (3, 3), (0, 3)].to_vec();
    for contour in contours::turned(&halves) {
        cases.push(of_contour(Centroid, 3, &contour));
    }
    for how in SPLITS {
        let answer = parts(&square(), Cut::Past(3, how)).expect("an accepted mesh");
        for lent in rooms::every(Size::of(&answer)) {
            cases.push(refused(how, 3, &square(), &answer, lent));
        }
    }
    cases
}

fn strategy(how: Split) -> &'static str {
    match how {
        Ear => "EarClipping",
        Fan => "Fan",
        Centroid => "Centroid",
    }
}

fn of_mesh(how: Split, limit: u32, mesh: &Mesh) -> Case {
    let answer = parts(mesh, Cut::Past(limit, how)).expect("an accepted mesh");
    let name = strategy(how);
    Case::new(
        format!(
            "mesh_gives {name} {limit} {} {}",
            antt::mesh(mesh),
            antt::contours(&answer)
        ),
        format!(
            "split_parts {name} {limit} {} is {}",
            text::mesh(mesh),
            text::contours(&answer)
        ),
    )
}

/// The Rust splits contours of meshes alone, so a mesh is made that joins to this
/// one.
fn of_contour(how: Split, limit: u32, contour: &[Point]) -> Case {
    let mesh = meshes::region(contour);
    assert_eq!(parts(&mesh, Cut::None), Ok(vec![contour.to_vec()]));
    let answer = parts(&mesh, Cut::Past(limit, how)).expect("an accepted mesh");
    let name = strategy(how);
    Case::new(
        format!(
            "contour_gives {name} {limit} {} {}",
            antt::contour(contour),
            antt::contours(&answer)
        ),
        format!(
            "split_contour {name} {limit} {} is {}",
            text::contour(contour),
            text::contours(&answer)
        ),
    )
}

fn refused(how: Split, limit: u32, mesh: &Mesh, answer: &[Contour], lent: Room) -> Case {
    let fault = fault(mesh, answer, lent);
    let Room { starts, numbers } = lent;
    let name = strategy(how);
    Case::new(
        format!(
            "refused {name} {limit} {} {starts} {numbers} {fault}",
            antt::mesh(mesh)
        ),
        format!(
            "split_fault {name} {limit} {} room {starts} {numbers} is {fault}",
            text::mesh(mesh)
        ),
    )
}

/// A strictly convex contour of any size, from any of its corners.
fn convex(rng: &mut Rng) -> Contour {
    let reach = coordinates::reach(rng);
    let corners = 4 + rng.below(CORNERS - 3);
    let mut contour = contours::convex(rng, corners, reach);
    let turn = rng.below(contour.len());
    contour.rotate_left(turn);
    contour
}
