//! The topic of crate `path`: the fault of a path as C lends it, and its corners, beside
//! the judge.

use crate::antt::{self, integers};
use crate::topic::{layers, Amount, Case, Topic};
use inputs::paths::{any, at_edges, harmed, of_corners, Harm, Import, HARMS};
use inputs::rng::Rng;
use inputs::text;
use judge::path::{imported, Item};

/// The definitions' names, here and in `DECLARATIONS`.
const USES: &str = "\
use Rattle.std.specs.Float.{binary64}
use Rattle.std.specs.Float.Ieee.{of_bits}
use Rattle.corners.specs.Corners.{numbers_of}
use Rattle.path.specs.declared.Frame.{Frame}
use Rattle.path.specs.Path.{path_fault, path_contour}
use Rattle.boundary_path.specs.Rows.{items_of}
";

const DECLARATIONS: &str = "
abbrev frame : ℕ → ℕ → ℕ → Frame
frame a b c = record { x = of_bits binary64 a; y = of_bits binary64 b; steps = of_bits binary64 c }

data Case : Type 0 where
  judges : List (List ℕ) → Frame → ℕ → ℕ → Case
  draws : List (List ℕ) → Frame → List ℤ → Case

abbrev holds : Case → Bool
holds (judges rows f room fault) = eqb (path_fault f (items_of rows) room) fault
holds (draws rows f corners) = eq_ints (numbers_of (path_contour f (items_of rows))) corners
";

/// Items past which a path is left out: the checker takes millions of steps for forty.
const LONG: usize = 14;

/// Rooms; every two damages; numbers about halves and about the ends of both ranges; random
/// ones.
pub fn topic(rng: &mut Rng, amount: Amount) -> Topic {
    let mut asked = roomed(rng);
    let short: Vec<Harm> = HARMS.into_iter().filter(|&h| h != Harm::Long).collect();
    for (i, &a) in short.iter().enumerate() {
        for &b in amount.some(&short[i..]) {
            asked.push(harmed(rng, &[a, b]));
        }
    }
    let edges = at_edges(rng);
    asked.extend((0..amount.random).map(|_| edges[rng.below(edges.len())].clone()));
    asked.extend((0..amount.random).map(|_| any(rng)));
    asked.retain(|import| import.path.len() <= LONG);
    Topic {
        name: "Paths",
        modules: layers::path(),
        uses: USES.into(),
        declarations: DECLARATIONS.into(),
        cases: asked.iter().flat_map(cases).collect(),
    }
}

/// Paths of one to three corners with room one number short, exact and longer.
fn roomed(rng: &mut Rng) -> Vec<Import> {
    let mut out = Vec::new();
    for corners in 1..=3 {
        for lent in [2 * corners - 1, 2 * corners, 2 * corners + 1] {
            let mut import = of_corners(rng, corners);
            import.lent = lent;
            out.push(import);
        }
    }
    out
}

/// Its fault; and its corners where it has none.
fn cases(import: &Import) -> Vec<Case> {
    let Import { path, frame, lent } = import;
    let row = |i: &Item| format!("({} ∷ {} ∷ {} ∷ [])", i.kind, i.x, i.y);
    let rows: Vec<String> = path.iter().map(row).collect();
    let term = format!(
        "{} (frame {} {} {})",
        antt::list(&rows),
        frame.x,
        frame.y,
        frame.steps
    );
    let told = text::path(path, frame);
    let answer = imported(path, frame, *lent);
    let fault = answer.as_ref().err().copied().unwrap_or(0);
    let mut cases = vec![Case::new(
        format!("judges {term} {lent} {fault}"),
        format!("path_fault {told} room {lent} is {fault}"),
    )];
    if let Ok(contour) = answer {
        let corners: Vec<i32> = contour.iter().flat_map(|&(x, y)| [x, y]).collect();
        cases.push(Case::new(
            format!("draws {term} {}", integers(&corners)),
            format!("path_contour {told} is {}", text::numbers(&corners)),
        ));
    }
    cases
}
