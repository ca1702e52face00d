//! Terms and files of the prover's language.

use crate::topic::{Module, Topic};
use i_triangle::int::reach::Place;
use judge::mesh::Triangle;
use judge::pairs::Operand;
use judge::table::Table;
use judge::{Contour, Point};

/// The modules that topics share, by name: `Shared` has the tests that every
/// topic uses, the others what some do.
pub const SHARED: [(&str, &str); 3] = [
    ("Shared", include_str!("shared.antt.in")),
    ("Figures", include_str!("figures.antt.in")),
    ("Places", include_str!("places.antt.in")),
];

/// The crates whose definitions those modules use.
pub const SHARED_DEPS: [&str; 3] = ["plane", "mesh", "pair"];

/// `use` lines for `Figures` (points, contours, triangles) and `Places`.
pub const FIGURES: &str = "\
use Rattle.cases.specs.Figures.{p, t, eq_point, eq_contour, eq_contours}
use Rattle.plane.specs.Plane.{Pt}
";
pub const PLACES: &str = "\
use Rattle.cases.specs.Places.{at, eq_place, eq_whole}
use Rattle.pair.specs.declared.Place.{Place}
";

/// What the definitions use of the kit that is kept folded.
const KIT: &str = "use mathlib.Core.List.{flatten}
use Rattle.std.specs.Float.Ieee as ieee
";
const KIT_UNFOLDING: &str = "flatten ieee.of_bits ieee.fits ieee.add ieee.sub ieee.mul";

/// How many cases one declaration computes. Larger ones take no less time.
pub const CHUNK: usize = 60;

/// Which declarations a file has: one for each chunk of cases, or one for each
/// case of some chunks, those that failed.
pub enum Declared<'a> {
    Chunks,
    Cases(&'a [Chunk]),
}

/// A chunk's declaration has this name and the number of its first case, and a
/// case's the other and its own number.
pub const CHUNK_NAME: &str = "all_";
pub const CASE_NAME: &str = "case_";

/// The number of a chunk's first case, among all cases.
pub type Chunk = usize;

/// A topic's file: its cases in chunks, and of each chunk that every case holds.
/// `first` is the number of its first case; `specs` reads the text of a module of
/// definitions.
pub fn file(
    topic: &Topic,
    first: usize,
    declared: &Declared,
    specs: impl Fn(Module) -> String,
) -> String {
    let mut uses = String::new();
    let mut unfolding = KIT_UNFOLDING.to_string();
    for &module in &topic.modules {
        let (layer, name) = module;
        let alias = name.to_lowercase();
        uses += &format!("use Rattle.{layer}.specs.{name} as {alias}\n");
        for folded in folded(&specs(module)) {
            unfolding += &format!(" {alias}.{folded}");
        }
    }
    let mut out = format!(
        "\
-- Cases whose answers are the Rust's or the judge's; made by oracle/definitions.
use Rattle.std.specs.Prelude.{{◌≡◌, Bool, true, false, not, cond, List, [], ◌∷◌, ◌++◌, ℕ, zero, suc, ◌+◌, eqb, leb, length, ℤ, pos, negsuc, ◌+ℤ◌}}
use Rattle.std.proofs.Common.{{refl}}
use Rattle.cases.specs.Shared.{{eq_int, eq_bool, eq_nats, eq_ints, both, same, ramp, every}}
{KIT}{uses}{}
{}
",
        topic.uses, topic.declarations
    );
    for (i, chunk) in topic.cases.chunks(CHUNK).enumerate() {
        let from = first + i * CHUNK;
        let terms: Vec<&str> = chunk.iter().map(|c| c.term.as_str()).collect();
        match declared {
            Declared::Chunks => {
                out += &format!(
                    "\ncases_{from} : List Case\ncases_{from} =\n    {} ∷ []\n",
                    terms.join(" ∷\n    ")
                );
                out += &format!(
                    "\n{CHUNK_NAME}{from} : every holds cases_{from} ≡ true\nunfolding cases_{from} {unfolding}\n{CHUNK_NAME}{from} = refl\n"
                );
            }
            Declared::Cases(failed) if failed.contains(&from) => {
                for (number, term) in (from..).zip(terms) {
                    out += &format!(
                        "\n{CASE_NAME}{number} : holds ({term}) ≡ true\nunfolding {unfolding}\n{CASE_NAME}{number} = refl\n"
                    );
                }
            }
            Declared::Cases(_) => {}
        }
    }
    out
}

/// The definitions of a module's text that the prover keeps folded.
fn folded(text: &str) -> impl Iterator<Item = &str> {
    text.lines()
        .filter_map(|line| line.trim_start().strip_prefix("unfoldable pub "))
        .filter_map(|rest| rest.split_whitespace().next())
}

/// An integer: `pos n` is n, `negsuc n` is −(n + 1).
pub fn integer(value: impl Into<i128>) -> String {
    let value: i128 = value.into();
    match u128::try_from(value) {
        Ok(natural) => format!("(pos {natural})"),
        Err(_) => format!("(negsuc {})", value.unsigned_abs() - 1),
    }
}

pub fn point((x, y): Point) -> String {
    format!("(p {} {})", integer(x), integer(y))
}

pub fn points(list: &[Point]) -> String {
    let each: Vec<String> = list.iter().map(|&p| point(p)).collect();
    each.join(" ")
}

/// How many equal elements in turn are written as `same`, and how many numbers
/// that go up evenly as `ramp`.
const RUN: usize = 24;

/// A list; a long run of equal elements is written by its length.
pub fn list(items: &[String]) -> String {
    let runs = items.chunk_by(|a, b| a == b);
    let mut out = "[]".to_string();
    for run in runs.collect::<Vec<_>>().iter().rev() {
        if run.len() >= RUN {
            out = format!("same {} {} ({out})", run.len(), run[0]);
        } else {
            for item in *run {
                out = format!("{item} ∷ {out}");
            }
        }
    }
    format!("({out})")
}

pub fn contour(corners: &[Point]) -> String {
    list(&corners.iter().map(|&p| point(p)).collect::<Vec<_>>())
}

pub fn contours(list_of: &[Contour]) -> String {
    list(&list_of.iter().map(|c| contour(c)).collect::<Vec<_>>())
}

pub fn integers(values: &[i32]) -> String {
    list(&values.iter().map(|&v| integer(v)).collect::<Vec<_>>())
}

/// Naturals; a long run that goes up by one is written by its length.
pub fn naturals(values: &[u32]) -> String {
    let mut out = "[]".to_string();
    let up = |a: &u32, b: &u32| a.checked_add(1) == Some(*b);
    for run in values.chunk_by(up).collect::<Vec<_>>().iter().rev() {
        if run.len() >= RUN {
            out = format!("ramp {} {} ({out})", run[0], run.len());
        } else {
            for value in run.iter().rev() {
                out = format!("{value} ∷ {out}");
            }
        }
    }
    format!("({out})")
}

pub fn bytes(values: &[u8]) -> String {
    list(&values.iter().map(u8::to_string).collect::<Vec<_>>())
}

pub fn mesh(mesh: &[Triangle]) -> String {
    let each: Vec<String> = mesh
        .iter()
        .map(|t| {
            let [i, j, k] = t.neighbours;
            format!("t {} {i} {j} {k}", points(&t.points))
        })
        .collect();
    list(&each.iter().map(|t| format!("({t})")).collect::<Vec<_>>())
}

/// Starts and corners, as two arguments.
pub fn table(table: &Table) -> String {
    format!("{} {}", naturals(&table.starts), integers(&table.corners))
}

/// Where a walk stands, by `at` of `Places`; what is no segment has ends too.
pub fn place(at: Place, (start, end): (usize, usize)) -> String {
    format!(
        "(at {} {} {} {} {} {start} {end})",
        at.index,
        at.remaining,
        at.reverse,
        at.reflected,
        at.segment.is_some()
    )
}

/// Bounds, by the topic's own `box`.
pub fn bounds(bounds: [i128; 4]) -> String {
    let each: Vec<String> = bounds.iter().map(|&b| integer(b)).collect();
    format!("(box {})", each.join(" "))
}

/// An operand, by the topic's own `operand`.
pub fn operand(operand: &Operand) -> String {
    format!(
        "(operand {} {})",
        table(&operand.table),
        bounds(operand.bounds.map(i128::from))
    )
}

#[cfg(test)]
mod tests {
    use super::*;

    #[test]
    fn integers_and_points() {
        assert_eq!(integer(0), "(pos 0)");
        assert_eq!(integer(-1), "(negsuc 0)");
        assert_eq!(integer(i64::MIN), "(negsuc 9223372036854775807)");
        assert_eq!(point((3, -3)), "(p (pos 3) (negsuc 2))");
    }

    #[test]
    fn lists_are_whole_and_runs_short() {
        assert_eq!(list(&[]), "([])");
        assert_eq!(naturals(&[5, 6, 9, 0]), "(5 ∷ 6 ∷ 9 ∷ 0 ∷ [])");
        assert_eq!(bytes(&[7; 30]), "(same 30 7 ([]))");
        let mut starts: Vec<u32> = (0..40).collect();
        starts.push(u32::MAX);
        assert_eq!(naturals(&starts), "(ramp 0 40 (4294967295 ∷ []))");
        let mut items = vec!["a".to_string()];
        items.extend(vec!["b".to_string(); 30]);
        items.push("c".into());
        assert_eq!(list(&items), "(a ∷ same 30 b (c ∷ []))");
    }

    #[test]
    fn the_folded_definitions_of_a_module() {
        let text = "-- a\nunfoldable pub one : ℕ\none = 1\n\
                    abbrev pub two : ℕ\nmodule _ where\n  unfoldable pub three : ℕ\n";
        assert_eq!(folded(text).collect::<Vec<_>>(), ["one", "three"]);
    }
}
