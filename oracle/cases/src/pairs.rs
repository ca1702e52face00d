//! The topic of crate `minkowski`: what all pairs of two operands refuse, beside
//! the judge; their contours, beside the Rust's `sum_parts` and
//! `difference_parts`; and the result's bounds.

use crate::antt::{self, bounds, operand};
use crate::topic::{layers, Amount, Case, Topic};
use cli::answers::pair_contours;
use inputs::operands::{self, Pair};
use inputs::pair_damage::{damaged, damaged_on, ORDER};
use inputs::rng::Rng;
use inputs::rooms;
use inputs::text;
use judge::pairs::{fault, result_bounds, Operand, Operation};
use judge::room::{self, Room, Size};
use judge::shown::Side;
use judge::table::Table;
use judge::Contour;

/// The definitions' names, here and in `DECLARATIONS`.
const USES: &str = "\
use Rattle.table.specs.declared.IntRect.{IntRect}
use Rattle.minkowski.specs.Pairs.{Operand, pairs_fault, pair_contours, result_bounds}
";

const DECLARATIONS: &str = "
abbrev box : ℤ → ℤ → ℤ → ℤ → IntRect
box a b c d = record { min_x = a; max_x = b; min_y = c; max_y = d }

abbrev operand : List ℕ → List ℤ → IntRect → Operand
operand s c b = record { starts = s; corners = c; bounds = b }

abbrev eq_box : IntRect → IntRect → Bool
eq_box v w =
    both (both (eq_int v.min_x w.min_x) (eq_int v.max_x w.max_x))
    (both (eq_int v.min_y w.min_y) (eq_int v.max_y w.max_y))

data Case : Type 0 where
  pairs_give : Bool → Operand → Operand → List (List Pt) → Case
  refused : Bool → Operand → Operand → ℕ → ℕ → ℕ → Case
  bounded : Bool → IntRect → IntRect → IntRect → Case

abbrev holds : Case → Bool
holds (pairs_give r a b ps) = eq_contours (pair_contours r a b) ps
holds (refused r a b starts corners f) = eqb (pairs_fault r a b starts corners) f
holds (bounded r a b c) = eq_box (result_bounds r a b) c
";

/// A pair is damaged in some twenty ways, so there are so many fewer of them.
const WAYS: usize = 30;

/// Result bounds at the limit and past it; windings that leave 64 bits one way
/// only; then random pairs, and some of them with each fault and with every two.
pub fn topic(rng: &mut Rng, amount: Amount) -> Topic {
    let count = amount.random;
    let mut all = operands::edges();
    for _ in 0..count.div_ceil(100) {
        all.extend(operands::one_way(rng));
    }
    let mut cases: Vec<Case> = all.iter().map(|pair| refused(rng, pair)).collect();
    cases.extend(all.iter().map(bounded));
    cases.extend(limits(rng));
    for _ in 0..count / 3 {
        let pair = small(rng);
        cases.extend([give(&pair), bounded(&pair), refused(rng, &pair)]);
    }
    for _ in 0..count.div_ceil(WAYS) {
        let good = small(rng);
        for (i, &a) in ORDER.iter().enumerate() {
            for &b in &ORDER[i..] {
                let hurt = damaged(rng, &good, &[a, b]);
                if is_small(&hurt.left) && is_small(&hurt.right) {
                    cases.push(refused(rng, &hurt));
                }
            }
        }
    }
    Topic {
        name: "Pairs",
        modules: layers::minkowski(),
        uses: format!("{}{USES}", antt::FIGURES),
        declarations: DECLARATIONS.into(),
        cases,
    }
}

/// Of a sum and of a difference: bounds that are all different; room one place short, exact
/// and longer; each fault with every other, on either side.
fn limits(rng: &mut Rng) -> Vec<Case> {
    let mut cases = Vec::new();
    let side = |parts: &[Contour], bounds: [i32; 4]| Operand {
        table: Table::of(parts),
        bounds,
    };
    for operation in [Operation::Sum, Operation::Difference] {
        let pair = Pair {
            operation,
            left: side(&[vec![(0, 0), (4, 0), (0, 3)], vec![]], [-1, 5, -20, 70]),
            right: side(
                &[vec![(1, 1), (2, 5)], vec![(7, 2)]],
                [-300, 1_100, -9_000, 60_000],
            ),
        };
        cases.extend([give(&pair), bounded(&pair)]);
        let answer = pair_contours(operation, &pair.left, &pair.right).expect("an accepted pair");
        for lent in rooms::every(Size::of(&answer)) {
            cases.push(refused_in(&pair, lent));
        }
        for (i, &a) in ORDER.iter().enumerate() {
            for &b in &ORDER[i..] {
                for sides in [[Side::Left, Side::Right], [Side::Right, Side::Left]] {
                    let hurt = loop {
                        let hurt = damaged_on(rng, &pair, &[(a, sides[0]), (b, sides[1])]);
                        if is_small(&hurt.left) && is_small(&hurt.right) {
                            break hurt;
                        }
                    };
                    let none = Room {
                        starts: 0,
                        numbers: 0,
                    };
                    cases.push(refused_in(&hurt, none));
                }
            }
        }
    }
    cases
}

fn reflected(pair: &Pair) -> bool {
    pair.operation == Operation::Difference
}

fn asked(pair: &Pair) -> String {
    format!(
        "{} {} {}",
        reflected(pair),
        operand(&pair.left),
        operand(&pair.right)
    )
}

fn said(pair: &Pair) -> String {
    format!(
        "{:?} {}; {}",
        pair.operation,
        text::operand(&pair.left),
        text::operand(&pair.right)
    )
}

fn give(pair: &Pair) -> Case {
    let answer = pair_contours(pair.operation, &pair.left, &pair.right).expect("an accepted pair");
    Case::new(
        format!("pairs_give {} {}", asked(pair), antt::contours(&answer)),
        format!(
            "pair_contours {} is {}",
            said(pair),
            text::contours(&answer)
        ),
    )
}

fn refused(rng: &mut Rng, pair: &Pair) -> Case {
    let answer = pair_contours(pair.operation, &pair.left, &pair.right).unwrap_or_default();
    let lent = rooms::about(rng, Size::of(&answer));
    refused_in(pair, lent)
}

fn refused_in(pair: &Pair, lent: Room) -> Case {
    let answer = pair_contours(pair.operation, &pair.left, &pair.right).unwrap_or_default();
    let fault = match fault(pair.operation, &pair.left, &pair.right) {
        0 => room::fault(Size::of(&answer), lent),
        fault => fault,
    };
    let Room { starts, numbers } = lent;
    Case::new(
        format!("refused {} {starts} {numbers} {fault}", asked(pair)),
        format!(
            "pairs_fault {} room {starts} {numbers} is {fault}",
            said(pair)
        ),
    )
}

fn bounded(pair: &Pair) -> Case {
    let (left, right) = (pair.left.bounds, pair.right.bounds);
    let result = result_bounds(pair.operation, left, right);
    Case::new(
        format!(
            "bounded {} {} {} {}",
            reflected(pair),
            bounds(left.map(i128::from)),
            bounds(right.map(i128::from)),
            bounds(result.map(i128::from))
        ),
        format!(
            "result_bounds {:?} {left:?} {right:?} is {result:?}",
            pair.operation
        ),
    )
}

/// An accepted pair of few parts with few corners.
fn small(rng: &mut Rng) -> Pair {
    operands::good(rng, 3, 5)
}

/// Whether a damaged operand is short enough to write down.
fn is_small(operand: &Operand) -> bool {
    operand.table.starts.len() + operand.table.corners.len() < 300
}
