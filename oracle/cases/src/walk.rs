//! The topic of crate `walk`: what a walk begun, its point, its edge, its advance, a
//! walk stepped, a pair begun and a pair stepped refuse, beside the judge, and what
//! they answer, beside the Rust.

use crate::antt::{self, integers, point};
use crate::topic::{layers, Amount, Case, Topic};
use i_triangle::int::reach;
use inputs::coordinates::EDGE;
use inputs::rng::Rng;
use inputs::text;
use inputs::walk_calls::limit_windings;
use inputs::{contours, coordinates, places};
use judge::limits::CONTOUR;
use judge::walk::{self, Place};
use judge::Point;

/// The definitions' names, here and in `DECLARATIONS`.
const USES: &str = "\
use Rattle.pair.specs.declared.ConvexSum.{ConvexSum}
use Rattle.walk.specs.Calls.{begin_fault, begun_of, begun_number, begun_place, point_fault, pointed_of, pointed_number, pointed_point}
use Rattle.walk.specs.Calls.{step_fault, stepped_of, stepped_number, stepped_edge, stepped_place, edged_of, edged_number, edged_edge}
use Rattle.walk.specs.Calls.{advanced_of, advanced_number, advanced_place, pair_begin_fault, paired_of, paired_number, paired_places}
use Rattle.walk.specs.Calls.{pair_step_fault, pair_stepped_of, next_number, next_corner, next_places}
use Rattle.walk.specs.declared.Begun.{Begun}
use Rattle.walk.specs.declared.Begun.TheVariants as begun
use Rattle.walk.specs.declared.Pointed.{Pointed}
use Rattle.walk.specs.declared.Pointed.TheVariants as pointed
use Rattle.walk.specs.declared.Stepped.{Stepped}
use Rattle.walk.specs.declared.Stepped.TheVariants as stepped
use Rattle.walk.specs.declared.Next.{Next}
use Rattle.walk.specs.declared.Next.TheVariants as next
";

const DECLARATIONS: &str = "
data Told : Type 0 where
  corner : Pt → Told
  nothing : Told

data Case : Type 0 where
  begins : List ℤ → Bool → ℕ → Place → Case
  points : List ℤ → Place → ℕ → Pt → Case
  steps : List ℤ → Place → ℕ → Pt → Place → Case
  pair_begins : Bool → List ℤ → List ℤ → ℕ → Place → Place → Case
  pair_steps : List ℤ → List ℤ → Place → Place → ℕ → Told → Place → Place → Case

abbrev sum : Place → Place → ConvexSum
sum v w = record { a = v; b = w }

abbrev eq_sum : ConvexSum → ConvexSum → Bool
eq_sum s u = both (eq_whole s.a u.a) (eq_whole s.b u.b)

-- f is the fault number, and the rest the answer where it is 0; a refusal hands a walk back as it came
abbrev is_begun : Begun → ℕ → Place → Bool
is_begun (begun.At v) f w = both (eqb f 0) (eq_place v w)
is_begun (begun.Refused g) f w = both (not (eqb f 0)) (eqb g f)

abbrev is_pointed : Pointed → ℕ → Pt → Bool
is_pointed (pointed.Point q) f r = both (eqb f 0) (both (eq_int q.x r.x) (eq_int q.y r.y))
is_pointed (pointed.Refused g) f r = both (not (eqb f 0)) (eqb g f)

abbrev is_stepped : Stepped → ℕ → Pt → Place → Bool
is_stepped (stepped.Edge e v) f r w = both (eqb f 0) (both (both (eq_int e.x r.x) (eq_int e.y r.y)) (eq_whole v w))
is_stepped (stepped.Refused g v) f r w = both (not (eqb f 0)) (both (eqb g f) (eq_whole v w))

-- a corner, or none where it is the end or a refusal
abbrev is_next : Next → ℕ → Told → ConvexSum → Bool
is_next (next.Corner q s) f (corner r) u = both (eqb f 0) (both (both (eq_int q.x r.x) (eq_int q.y r.y)) (eq_sum s u))
is_next (next.Corner q s) f nothing u = false
is_next (next.End s) f (corner r) u = false
is_next (next.End s) f nothing u = both (eqb f 0) (eq_sum s u)
is_next (next.Refused g s) f (corner r) u = false
is_next (next.Refused g s) f nothing u = both (not (eqb f 0)) (both (eqb g f) (eq_sum s u))

-- a value is told where there is no fault
abbrev one_place : List Place → ℕ → Place → Bool
one_place [] f w = not (eqb f 0)
one_place (v ∷ l) f w = both (eqb f 0) (eq_place v w)

abbrev one_point : List Pt → ℕ → Pt → Bool
one_point [] f r = not (eqb f 0)
one_point (q ∷ l) f r = both (eqb f 0) (both (eq_int q.x r.x) (eq_int q.y r.y))

abbrev one_pair : List ConvexSum → ℕ → Place → Place → Bool
one_pair [] f v w = not (eqb f 0)
one_pair (s ∷ l) f v w = both (eqb f 0) (both (eq_place s.a v) (eq_place s.b w))

abbrev one_corner : List Pt → Told → Bool
one_corner [] nothing = true
one_corner [] (corner r) = false
one_corner (q ∷ l) nothing = false
one_corner (q ∷ l) (corner r) = both (eq_int q.x r.x) (eq_int q.y r.y)

abbrev numbers : ℕ → ℕ → ℕ → Bool
numbers f g h = both (eqb f h) (eqb g h)

abbrev holds : Case → Bool
holds (begins l r f w) =
    both (numbers (begin_fault l r) (begun_number (begun_of l r)) f) (both (is_begun (begun_of l r) f w) (one_place (begun_place (begun_of l r)) f w))
holds (points l w f q) =
    both (numbers (point_fault l w) (pointed_number (pointed_of l w)) f) (both (is_pointed (pointed_of l w) f q) (one_point (pointed_point (pointed_of l w)) f q))
holds (steps l w f e v) =
    both (both (numbers (step_fault l w) (stepped_number (stepped_of l w)) f) (numbers (edged_number (edged_of l w)) (advanced_number (advanced_of l w)) f))
    (both (both (one_point (stepped_edge (stepped_of l w)) f e) (one_point (edged_edge (edged_of l w)) f e))
    (both (both (eq_whole (stepped_place (stepped_of l w)) v) (eq_whole (advanced_place (advanced_of l w)) v)) (is_stepped (stepped_of l w) f e v)))
holds (pair_begins m l r f v w) =
    both (numbers (pair_begin_fault m l r) (paired_number (paired_of m l r)) f) (one_pair (paired_places (paired_of m l r)) f v w)
holds (pair_steps l r v w f c v2 w2) =
    both (both (numbers (pair_step_fault l r (sum v w)) (next_number (pair_stepped_of l r (sum v w))) f) (one_corner (next_corner (pair_stepped_of l r (sum v w))) c))
    (both (eq_sum (next_places (pair_stepped_of l r (sum v w))) (sum v2 w2)) (is_next (pair_stepped_of l r (sum v w)) f c (sum v2 w2)))
";

/// Numbers of a place are 16 bits.
const LARGEST: usize = u16::MAX as usize;

/// How many corners a random contour has at the most.
const CORNERS: usize = 7;

/// A place as a caller may make it: the ends of what is no segment are any numbers
/// too, and are kept.
#[derive(Clone, Copy)]
struct Given {
    at: Place,
    ends: (usize, usize),
}

/// The longest contour and one more, then random ones of each kind, good and
/// damaged.
pub fn topic(rng: &mut Rng, amount: Amount) -> Topic {
    let count = amount.random;
    let mut cases = limits();
    for corners in [CONTOUR, CONTOUR + 1] {
        let flat = vec![3; 2 * corners];
        let given = given(rng, corners);
        cases.extend([points(&flat, given), steps(&flat, given)]);
    }
    cases.push(begins(&[3; 2 * CONTOUR + 2], false));
    cases.push(begins(&[], false));
    for _ in 0..count / 2 {
        let flat = numbers(rng);
        let (l, w) = (flat.len() / 2, rng.once_in(2));
        cases.push(begins(&flat, w));
        let given = given(rng, l);
        cases.push(points(&flat, given));
        cases.push(steps(&flat, given));
        let (a, b) = (numbers(rng), numbers(rng));
        cases.push(pair_begins(&a, &b, rng.once_in(2)));
        cases.push(pair(rng, &a, &b));
        let (a, b) = (good(rng), good(rng));
        cases.push(pair(rng, &a, &b));
    }
    Topic {
        name: "Walk",
        modules: layers::walk(),
        uses: format!("{}{}{USES}", antt::FIGURES, antt::PLACES),
        declarations: DECLARATIONS.into(),
        cases,
    }
}

/// Windings at the limits of 64 bits, coordinates about theirs, both together and with a
/// number too many; places and ends at the last corner and one past it; one step left and
/// none.
fn limits() -> Vec<Case> {
    let mut cases = Vec::new();
    let flat =
        |contour: &[Point]| -> Vec<i32> { contour.iter().flat_map(|&(x, y)| [x, y]).collect() };
    for contour in limit_windings() {
        for reflected in [false, true] {
            cases.push(begins(&flat(&contour), reflected));
        }
        let far = flat(&contour);
        let mut beyond = far.clone();
        beyond.extend([EDGE + 1, 0]);
        let mut odd = beyond.clone();
        odd.push(0);
        for numbers in [&beyond, &odd] {
            cases.push(begins(numbers, false));
            cases.push(pair_begins(&far, numbers, true));
            cases.push(pair_begins(numbers, &far, false));
            cases.push(pair_begins(numbers, &[], false));
        }
        cases.push(pair_begins(&far, &[], false));
        cases.push(pair_begins(&[], &far, true));
    }
    for z in [EDGE - 1, EDGE, EDGE + 1, 1 - EDGE, -EDGE, -EDGE - 1] {
        cases.push(begins(&[0, 0, z, 0, 0, z], false));
    }
    let triangle = [0, 0, 4, 0, 0, 3];
    for index in [1, 2, 3] {
        for remaining in [0, 1] {
            for segment in [None, Some((0, index)), Some((index, 1))] {
                let at = Place {
                    index: index.min(2),
                    reverse: false,
                    remaining,
                    reflected: false,
                    segment,
                };
                let past = Place {
                    index,
                    segment: None,
                    ..at
                };
                for at in [at, past] {
                    let given = Given {
                        at,
                        ends: at.segment.unwrap_or((0, 0)),
                    };
                    cases.extend([points(&triangle, given), steps(&triangle, given)]);
                }
            }
        }
    }
    cases
}

fn begins(flat: &[i32], reflected: bool) -> Case {
    let fault = walk::begun(flat, reflected);
    let answer = match fault {
        0 => reach::begin(&corners(flat), reflected).map(judged),
        _ => None,
    };
    let place = answer.map_or_else(nowhere, |at| Given {
        at,
        ends: at.segment.unwrap_or((0, 0)),
    });
    Case::new(
        format!(
            "begins {} {reflected} {fault} {}",
            integers(flat),
            term(place)
        ),
        format!(
            "begun_of {} {reflected} is {fault} {answer:?}",
            text::numbers(flat)
        ),
    )
}

fn pair_begins(a: &[i32], b: &[i32], reflected: bool) -> Case {
    let fault = walk::pair_begun(a, b, reflected);
    let place = |flat: &[i32], reflected| match fault {
        0 => {
            let at = reach::begin(&corners(flat), reflected).map(judged);
            at.map_or_else(nowhere, |at| Given {
                at,
                ends: at.segment.unwrap_or((0, 0)),
            })
        }
        _ => nowhere(),
    };
    let (first, second) = (place(a, false), place(b, reflected));
    Case::new(
        format!(
            "pair_begins {reflected} {} {} {fault} {} {}",
            integers(a),
            integers(b),
            term(first),
            term(second)
        ),
        format!(
            "paired_of {reflected} {} {} is {fault} {:?} {:?}",
            text::numbers(a),
            text::numbers(b),
            first.at,
            second.at
        ),
    )
}

fn points(flat: &[i32], given: Given) -> Case {
    let fault = walk::point(flat, given.at);
    let answer = match fault {
        0 => reach::point_at(&corners(flat), exposed(given.at)),
        _ => (0, 0),
    };
    Case::new(
        format!(
            "points {} {} {fault} {}",
            integers(flat),
            term(given),
            point(answer)
        ),
        format!(
            "pointed_of {} {:?} is {fault} {answer:?}",
            text::numbers(flat),
            given.at
        ),
    )
}

fn steps(flat: &[i32], given: Given) -> Case {
    let fault = walk::stepped(flat, given.at);
    let ((x, y), after) = match fault {
        0 => {
            let (corners, at) = (corners(flat), exposed(given.at));
            let after = Given {
                at: judged(reach::advanced(&corners, at)),
                ..given
            };
            (reach::edge_at(&corners, at), after)
        }
        _ => ((0, 0), given),
    };
    Case::new(
        format!(
            "steps {} {} {fault} (p {} {}) {}",
            integers(flat),
            term(given),
            antt::integer(x),
            antt::integer(y),
            term(after)
        ),
        format!(
            "stepped_of {} {:?} is {fault} edge {:?} then {:?}",
            text::numbers(flat),
            given.at,
            (x, y),
            after.at
        ),
    )
}

fn pair(rng: &mut Rng, a: &[i32], b: &[i32]) -> Case {
    // A contour of one point has only zero edges, and all its steps are taken.
    let mut given = |flat: &[i32]| {
        let mut given = given(rng, flat.len() / 2);
        given.at.remaining = given.at.remaining.min(flat.len() + 3);
        given
    };
    let (at_a, at_b) = (given(a), given(b));
    let asked = format!(
        "{} {} {} {}",
        integers(a),
        integers(b),
        term(at_a),
        term(at_b)
    );
    let said = format!(
        "pair_stepped_of {} {} {:?} {:?}",
        text::numbers(a),
        text::numbers(b),
        at_a.at,
        at_b.at
    );
    let fault = walk::pair_step(a, at_a.at, b, at_b.at);
    let (emitted, after_a, after_b) = match fault {
        0 => reach::pair_next(&corners(a), exposed(at_a.at), &corners(b), exposed(at_b.at)),
        _ => (None, exposed(at_a.at), exposed(at_b.at)),
    };
    let told = match emitted {
        Some(corner) => format!("(corner {})", point(corner)),
        None => "nothing".into(),
    };
    Case::new(
        format!(
            "pair_steps {asked} {fault} {told} {} {}",
            antt::place(after_a, at_a.ends),
            antt::place(after_b, at_b.ends)
        ),
        format!("{said} is {fault} {emitted:?} then {after_a:?} {after_b:?}"),
    )
}

/// Numbers of a contour: good ones, or with one left off or out of range.
fn numbers(rng: &mut Rng) -> Vec<i32> {
    let mut flat = good(rng);
    if !flat.is_empty() {
        let at = rng.below(flat.len());
        match rng.below(10) {
            0 => drop(flat.pop()),
            1 | 2 => flat[at] = coordinates::beyond(rng),
            _ => {}
        }
    }
    flat
}

fn good(rng: &mut Rng) -> Vec<i32> {
    let reach = coordinates::reach(rng);
    let contour = match rng.below(20) {
        0 => contours::too_far(rng),
        1 => contours::at_64_bits(rng),
        _ => contours::any(rng, CORNERS, reach),
    };
    contour.iter().flat_map(|&(x, y)| [x, y]).collect()
}

fn given(rng: &mut Rng, corners: usize) -> Given {
    let mut at = places::any(rng, corners);
    let small = |n: usize| n.min(LARGEST);
    at.index = small(at.index);
    at.remaining = small(at.remaining);
    at.segment = at.segment.map(|(a, b)| (small(a), small(b)));
    let other = (rng.below(corners + 2), rng.pick(&[0, 1, LARGEST]));
    Given {
        at,
        ends: at.segment.unwrap_or(other),
    }
}

/// What stands for a place where a call refuses.
fn nowhere() -> Given {
    Given {
        at: Place {
            index: 0,
            reverse: false,
            remaining: 0,
            reflected: false,
            segment: None,
        },
        ends: (0, 0),
    }
}

fn term(given: Given) -> String {
    antt::place(exposed(given.at), given.ends)
}

fn exposed(at: Place) -> reach::Place {
    reach::Place {
        index: at.index,
        reverse: at.reverse,
        remaining: at.remaining,
        reflected: at.reflected,
        segment: at.segment,
    }
}

fn judged(at: reach::Place) -> Place {
    Place {
        index: at.index,
        reverse: at.reverse,
        remaining: at.remaining,
        reflected: at.reflected,
        segment: at.segment,
    }
}

fn corners(flat: &[i32]) -> Vec<Point> {
    flat.chunks_exact(2).map(|p| (p[0], p[1])).collect()
}
