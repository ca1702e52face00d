//! The topic of crate `plane`: crosses, doubled areas, the order of directions
//! (beside the Rust), and which points are in range (beside the judge).

use crate::antt::{self, integer, point, points};
use crate::topic::{Amount, Case, Topic};
use i_triangle::int::{expose, reach};
use inputs::coordinates::EDGE;
use inputs::plane::{self, Four};
use inputs::rng::Rng;
use judge::limits::point_in_range;
use judge::Point;
use std::cmp::Ordering;

/// The definitions' names, here and in `DECLARATIONS`.
const USES: &str = "\
use Rattle.plane.specs.Plane.{◌-ᵖ◌, cross, area_two, angle_cmp, is_less, is_equal, is_greater, on_grid}
";

const DECLARATIONS: &str = "
data Order : Type 0 where
  less : Order
  equal : Order
  greater : Order

data Case : Type 0 where
  crossed : Pt → Pt → Pt → Pt → ℤ → Case
  area : Pt → Pt → Pt → ℤ → Case
  directed : Pt → Pt → Pt → Pt → Order → Case
  ranged : Pt → Bool → Case

abbrev holds : Case → Bool
holds (crossed a b c d k) = eq_int (cross (b -ᵖ a) (d -ᵖ c)) k
holds (area a b c k) = eq_int (area_two a b c) k
holds (directed a b c d less) = is_less (angle_cmp (b -ᵖ a) (d -ᵖ c))
holds (directed a b c d equal) = is_equal (angle_cmp (b -ᵖ a) (d -ᵖ c))
holds (directed a b c d greater) = is_greater (angle_cmp (b -ᵖ a) (d -ᵖ c))
holds (ranged a b) = eq_bool (on_grid a) b
";

/// Coordinates one below the limit, at it and one beyond, of either sign.
fn limits() -> Vec<Case> {
    let about = [EDGE - 1, EDGE, EDGE + 1].map(|z| [z, -z]);
    let all = about
        .into_iter()
        .flatten()
        .flat_map(|z| [(z, 0), (0, z), (z, z)]);
    let mut cases: Vec<Case> = all.map(range).collect();
    // opposite directions and equal ones, as long as can be
    let (near, far) = ((-EDGE, -EDGE), (EDGE, EDGE));
    cases.extend(of([near, far, far, near]));
    cases.extend(of([near, far, near, (0, 0)]));
    cases.extend(of([near, (EDGE, -EDGE), near, (-EDGE, EDGE)]));
    cases
}

/// Every pair of vectors with components from −SMALL to SMALL, then `count`
/// random ones of each kind.
const SMALL: i32 = 2;

pub fn topic(rng: &mut Rng, amount: Amount) -> Topic {
    let mut cases = limits();
    for four in amount.some(plane::small(SMALL)) {
        cases.extend(of(four));
    }
    for _ in 0..amount.random {
        let four = plane::any(rng);
        cases.extend(of(four));
    }
    Topic {
        name: "Plane",
        modules: vec![("plane", "Plane")],
        uses: format!("{}{USES}", antt::FIGURES),
        declarations: DECLARATIONS.into(),
        cases,
    }
}

/// The cases of four points: where they are in range, the cross, the area and the
/// order; and of one of the points, whether it is.
fn of(four: Four) -> Vec<Case> {
    let [a, b, c, d] = four;
    let third = plane::three(four);
    let ranged = [a, b, c, d]
        .into_iter()
        .find(|&p| !point_in_range(p))
        .unwrap_or(a);
    let mut cases = vec![range(ranged)];
    if four.iter().all(|&p| point_in_range(p)) {
        cases.extend([cross(four), order(four)]);
    }
    if third.iter().all(|&p| point_in_range(p)) {
        cases.push(area(third));
    }
    cases
}

fn cross([a, b, c, d]: Four) -> Case {
    let value = expose::cross_product(a, b, c, d);
    Case {
        term: format!("crossed {} {}", points(&[a, b, c, d]), integer(value)),
        text: format!("cross {:?} is {value}", [a, b, c, d]),
    }
}

fn area([a, b, c]: [Point; 3]) -> Case {
    let value = expose::area_two(a, b, c);
    Case {
        term: format!("area {} {}", points(&[a, b, c]), integer(value)),
        text: format!("area_two {:?} is {value}", [a, b, c]),
    }
}

fn order([a, b, c, d]: Four) -> Case {
    let vector = |p: Point, q: Point| {
        (
            i64::from(q.0) - i64::from(p.0),
            i64::from(q.1) - i64::from(p.1),
        )
    };
    let order = match reach::angle_cmp_of(vector(a, b), vector(c, d)) {
        Ordering::Less => "less",
        Ordering::Equal => "equal",
        Ordering::Greater => "greater",
    };
    Case {
        term: format!("directed {} {order}", points(&[a, b, c, d])),
        text: format!("angle_cmp {:?} is {order}", [a, b, c, d]),
    }
}

fn range(a: Point) -> Case {
    let is = point_in_range(a);
    Case {
        term: format!("ranged {} {is}", point(a)),
        text: format!("on_grid {a:?} is {is}"),
    }
}
