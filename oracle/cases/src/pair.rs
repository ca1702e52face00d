//! The topic of crate `pair`: the contour of a pair, beside the Rust's
//! `ConvexSum`; where a walk begins, beside its `Walk`; windings, once round and
//! strictly convex, beside the judge; de Berg et al.'s sum, beside `ConvexSum`;
//! and what demand 3 says, computed of contours once round.

use crate::antt::{self, contour, integer, point};
use crate::topic::{layers, Amount, Case, Topic};
use i_triangle::int::expose::{one_pair, Operation};
use i_triangle::int::reach;
use inputs::rng::Rng;
use inputs::text;
use inputs::walk_calls::limit_windings;
use inputs::{contours, coordinates};
use judge::round::{once_round, strictly_convex};
use judge::walk::{winding, winding_leaves_64_bits};
use judge::{Contour, Point};

/// The definitions' names, here and in `DECLARATIONS`.
const USES: &str = "\
use Rattle.std.specs.Int.Signed.{lt_z}
use Rattle.plane.specs.Plane.{O, ◌+ᵖ◌}
use Rattle.pair.specs.Walk.{corner_at, begin, point_of, winding, winding_leaves}
use Rattle.pair.specs.Pair.{pair_contour}
use Rattle.pair.specs.Premise.{once_round, strictly_convex, forward, round_by, without_repeats, through_origin}
use Rattle.pair.specs.Berg.{de_berg}
use Rattle.pair.specs.Demand.{second, walk_edges, live, ascending, sumᵖ}
";

const DECLARATIONS: &str = "
data Case : Type 0 where
  pair_gives : Bool → List Pt → List Pt → List Pt → Case
  begins : Bool → List Pt → Place → Case
  winds : Bool → List Pt → ℤ → Bool → Case
  round : List Pt → Bool → Bool → Case
  berg_gives : List Pt → List Pt → List Pt → Case
  reaches : Pt → List Pt → ℤ → Case
  demanded : Bool → List Pt → List Pt → List Pt → Case

-- c is a + b for some b of B; for some a of A too; each c of K is
abbrev some_sum : Pt → Pt → List Pt → Bool
some_sum c a [] = false
some_sum c a (b ∷ B) = cond (eq_point c (a +ᵖ b)) true (some_sum c a B)

abbrev is_sum : Pt → List Pt → List Pt → Bool
is_sum c [] B = false
is_sum c (a ∷ A) B = cond (some_sum c a B) true (is_sum c A B)

abbrev all_sums : List Pt → List Pt → List Pt → Bool
all_sums [] A B = true
all_sums (c ∷ K) A B = cond (is_sum c A B) (all_sums K A B) false

-- the reach of K in each direction is the two reaches added
abbrev adds : List Pt → List Pt → List Pt → List Pt → Bool
adds [] A B K = true
adds (d ∷ ds) A B K = both (eq_int (premise.reach d K) (premise.reach d A +ℤ premise.reach d B)) (adds ds A B K)

-- WalkedRound
abbrev walked : Bool → List Pt → Bool
walked r l =
    both (not (eq_int (winding r l) (pos 0)))
    (both (eq_bool (lt_z (pos 0) (winding r l)) (round_by forward (without_repeats l)))
    (both (ascending (live (walk_edges r l))) (eq_point (sumᵖ (walk_edges r l)) O)))

-- FarthestReach, but for what it says of every other list
abbrev farthest : Pt → List Pt → List Pt → List Pt → List Pt → Bool
farthest start A B K ds =
    both (eq_point (corner_at K 0) start) (both (strictly_convex K) (both (all_sums K A B) (both (adds ds A B K) (leb (length K) (length A + length B)))))

abbrev holds : Case → Bool
holds (pair_gives r A B K) = eq_contour (pair_contour r A B) K
holds (begins r l w) = eq_place (begin r l) w
holds (winds r l k leaves) = both (eq_int (winding r l) k) (eq_bool (winding_leaves r l) leaves)
holds (round l once strictly) = both (eq_bool (once_round l) once) (eq_bool (strictly_convex l) strictly)
holds (berg_gives A B K) = eq_contour (de_berg A B) K
holds (reaches d l k) = eq_int (premise.reach d l) k
holds (demanded r A B ds) =
    both (walked false A) (both (walked r B) (farthest (point_of A (begin false A) +ᵖ point_of B (begin r B)) A (second r B) (pair_contour r A B) ds))
";

/// How many corners random contours have at the most.
const CORNERS: usize = 10;

/// Every two contours of up to two corners on a grid of 2 by 2, and the words of
/// all of up to three or four; then random ones of each kind.
pub fn topic(rng: &mut Rng, amount: Amount) -> Topic {
    let count = amount.random;
    let mut cases: Vec<Case> = limit_windings().iter().flat_map(|l| winds(l)).collect();
    for (_, corners) in contours::LISTED {
        cases.extend(both(corners, &[(0, 0), (2, 0), (0, 2)]));
        cases.extend(both(&[(0, 0), (3, 1)], corners));
    }
    let tiny: Vec<Contour> = contours::small(2, 2).collect();
    for (a, b) in amount.some(tiny.iter().flat_map(|a| tiny.iter().map(move |b| (a, b)))) {
        cases.extend(both(a, b));
    }
    for l in amount.some(contours::small(2, 4)) {
        cases.push(round(&l));
    }
    for l in amount.some(contours::small(2, 3)) {
        cases.extend(walks(&l));
    }
    let lists: Vec<Contour> = contours::small(3, 3).collect();
    for _ in 0..count / 2 {
        let (a, b) = (
            &lists[rng.below(lists.len())],
            &lists[rng.below(lists.len())],
        );
        cases.extend(both(a, b));
        let (a, b) = (any(rng), any(rng));
        cases.extend(both(&a, &b));
        cases.push(round(&a));
    }
    for _ in 0..count / 8 {
        cases.extend(walks(&any(rng)));
        cases.extend(winds(&far(rng)));
        let l = nearly_round(rng);
        cases.push(round(&l));
        cases.push(reaches(coordinates::point(rng), &l));
        let (a, b) = (strict(rng), strict(rng));
        cases.push(berg(&a, &b));
        let (a, b) = (rounded(rng), rounded(rng));
        let reflected = rng.once_in(2);
        cases.push(demanded(rng, reflected, &a, &b));
    }
    Topic {
        name: "Pair",
        modules: layers::pair(),
        uses: format!("{}{}{USES}", antt::FIGURES, antt::PLACES),
        declarations: DECLARATIONS.into(),
        cases,
    }
}

/// The sum and the difference.
fn both(a: &[Point], b: &[Point]) -> [Case; 2] {
    [Operation::Sum, Operation::Difference].map(|operation| {
        let emitted = one_pair(operation, a, b).unwrap_or_default();
        let reflected = operation == Operation::Difference;
        Case::new(
            format!(
                "pair_gives {reflected} {} {} {}",
                contour(a),
                contour(b),
                contour(&emitted)
            ),
            format!(
                "pair_contour {reflected} {} {} is {}",
                text::contour(a),
                text::contour(b),
                text::contour(&emitted)
            ),
        )
    })
}

/// Where both walks begin, where the Rust can begin them, and how they wind.
fn walks(l: &[Point]) -> Vec<Case> {
    let mut cases = winds(l);
    for reflected in [false, true] {
        if winding_leaves_64_bits(l, reflected) {
            continue;
        }
        if let Some(at) = reach::begin(l, reflected) {
            let place = antt::place(at, at.segment.unwrap_or((0, 0)));
            cases.push(Case::new(
                format!("begins {reflected} {} {place}", contour(l)),
                format!("begin {reflected} {} is {at:?}", text::contour(l)),
            ));
        }
    }
    cases
}

fn winds(l: &[Point]) -> Vec<Case> {
    let of = |reflected: bool| {
        let (total, leaves) = (winding(l, reflected), winding_leaves_64_bits(l, reflected));
        Case::new(
            format!(
                "winds {reflected} {} {} {leaves}",
                contour(l),
                integer(total)
            ),
            format!(
                "winding {reflected} {} is {total}, leaves 64 bits: {leaves}",
                text::contour(l)
            ),
        )
    };
    vec![of(false), of(true)]
}

fn round(l: &[Point]) -> Case {
    let (once, strictly) = (once_round(l), strictly_convex(l));
    Case::new(
        format!("round {} {once} {strictly}", contour(l)),
        format!(
            "once_round {} is {once}, strictly_convex {strictly}",
            text::contour(l)
        ),
    )
}

fn berg(a: &[Point], b: &[Point]) -> Case {
    let sum = one_pair(Operation::Sum, a, b).unwrap_or_default();
    Case::new(
        format!("berg_gives {} {} {}", contour(a), contour(b), contour(&sum)),
        format!(
            "de_berg {} {} is {}",
            text::contour(a),
            text::contour(b),
            text::contour(&sum)
        ),
    )
}

/// The greatest u x + v y; 0 of no corners.
fn reaches(d: Point, l: &[Point]) -> Case {
    let dot = |p: &Point| i128::from(d.0) * i128::from(p.0) + i128::from(d.1) * i128::from(p.1);
    let most = l.iter().map(dot).max().unwrap_or(0);
    Case::new(
        format!("reaches {} {} {}", point(d), contour(l), integer(most)),
        format!("reach {d:?} {} is {most}", text::contour(l)),
    )
}

/// What demand 3 says of two contours once round, in some directions: the nearest
/// ones and two of any size.
fn demanded(rng: &mut Rng, reflected: bool, a: &[Point], b: &[Point]) -> Case {
    let mut directions: Vec<Point> = (-1..=1)
        .flat_map(|x| (-1..=1).map(move |y| (x, y)))
        .collect();
    directions.extend([coordinates::point(rng), coordinates::point_within(rng, 9)]);
    Case::new(
        format!(
            "demanded {reflected} {} {} {}",
            contour(a),
            contour(b),
            contour(&directions)
        ),
        format!(
            "demand_3 {reflected} {} {} holds in the directions {}",
            text::contour(a),
            text::contour(b),
            text::contour(&directions)
        ),
    )
}

/// A contour of any kind that a walk can begin on either way.
fn any(rng: &mut Rng) -> Contour {
    loop {
        let reach = coordinates::reach(rng);
        let l = contours::any(rng, CORNERS, reach);
        if !winding_leaves_64_bits(&l, false) && !winding_leaves_64_bits(&l, true) {
            return l;
        }
    }
}

/// One whose winding is at the limits of 64 bits or past them, of few corners: the
/// checker's time for a winding grows with their square.
fn far(rng: &mut Rng) -> Contour {
    loop {
        let l = match rng.below(4) {
            0 => contours::too_far(rng),
            _ => contours::at_64_bits(rng),
        };
        if l.len() <= 2 * CORNERS {
            return l;
        }
    }
}

/// Once round, and sometimes with a corner moved by one or put elsewhere.
fn nearly_round(rng: &mut Rng) -> Contour {
    let mut l = rounded(rng);
    let at = rng.below(l.len());
    match rng.below(4) {
        0 => l[at] = (l[at].0 + rng.between(-1, 1), l[at].1 + rng.between(-1, 1)),
        1 => {
            let other = rng.below(l.len());
            l.swap(at, other);
        }
        _ => {}
    }
    l
}

fn rounded(rng: &mut Rng) -> Contour {
    let reach = coordinates::reach(rng);
    let corners = 3 + rng.below(CORNERS / 2);
    contours::once_round(rng, corners, reach)
}

/// Strictly convex, either way round.
fn strict(rng: &mut Rng) -> Contour {
    let reach = coordinates::reach(rng);
    let corners = 3 + rng.below(CORNERS - 2);
    let mut l = contours::convex(rng, corners, reach);
    let turn = rng.below(l.len());
    l.rotate_left(turn);
    if rng.once_in(2) {
        l.reverse();
    }
    l
}
