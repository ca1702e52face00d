//! Part tables with bounds, and pairs of them that the faults accept.

use crate::contours;
use crate::coordinates::EDGE;
use crate::rng::Rng;
use judge::limits::{CONTOUR, CORNERS, PARTS};
use judge::pairs::{Operand, Operation};
use judge::table::Table;
use judge::walk::winding_leaves_64_bits;
use judge::{Contour, Point};

/// A left and a right operand and what is asked of them.
#[derive(Debug, Clone, PartialEq, Eq)]
pub struct Pair {
    pub operation: Operation,
    pub left: Operand,
    pub right: Operand,
}

/// An operand of these contours; its bounds are theirs, or wider within reach.
pub fn operand(rng: &mut Rng, parts: &[Contour], reach: i32) -> Operand {
    let corners: Vec<Point> = parts.concat();
    let mut bounds = contours::bounds(&corners);
    if rng.once_in(3) {
        for (i, bound) in bounds.iter_mut().enumerate() {
            *bound = match i % 2 {
                0 => rng.between(-reach, *bound),
                _ => rng.between(*bound, reach),
            };
        }
    }
    Operand {
        table: Table::of(parts),
        bounds,
    }
}

/// Up to so many contours of every kind within reach.
pub fn parts(rng: &mut Rng, most: usize, corners: usize, reach: i32) -> Vec<Contour> {
    let count = 1 + rng.below(most);
    (0..count)
        .map(|_| contours::any(rng, corners, reach))
        .collect()
}

/// An accepted pair: the two reaches together stay below 2^30.
pub fn good(rng: &mut Rng, most: usize, corners: usize) -> Pair {
    let (left_reach, right_reach) = match rng.below(6) {
        0 => (EDGE, 0),
        1 => (0, EDGE),
        2 => (1 << 29, (1 << 29) - 1),
        3 => (1_000_000, 1_000),
        _ => (6, 6),
    };
    let mut side = |reach: i32| {
        let mut parts = match reach {
            0 => vec![vec![(0, 0); 1 + rng.below(3)]],
            _ => parts(rng, most, corners, reach),
        };
        // A random contour of the whole range may wind too far.
        for contour in &mut parts {
            let far = |reflected| winding_leaves_64_bits(contour, reflected);
            if far(false) || far(true) {
                contour.truncate(4);
            }
        }
        operand(rng, &parts, reach)
    };
    let (left, right) = (side(left_reach), side(right_reach));
    let operation = rng.pick(&[Operation::Sum, Operation::Difference]);
    Pair {
        operation,
        left,
        right,
    }
}

/// An accepted pair with left and right edges whose directions differ by the least that
/// the range allows: their cross is 1 or -1, and their extents add up to little less than 2^31
/// on an axis, which two operands of a pair can have together and no more.
pub fn neighbours(rng: &mut Rng, operation: Operation) -> Pair {
    let count = 1 + rng.below(5);
    let mut sides = [Vec::new(), Vec::new()];
    let wide_first = rng.once_in(2);
    for _ in 0..count {
        let (wide, narrow) = neighbour_edges(rng);
        let (e, f) = if wide_first {
            (wide, narrow)
        } else {
            (narrow, wide)
        };
        let turn = rng.below(8);
        // the right parts of a difference are turned through the origin
        let back = match operation {
            Operation::Sum => 1,
            Operation::Difference => -1,
        };
        sides[0].push(beneath(turned(turn, e)));
        let (x, y) = turned(turn, f);
        sides[1].push(beneath((back * x, back * y)));
    }
    let [left, right] = sides.map(|edges| within(rng, &edges));
    Pair {
        operation,
        left,
        right,
    }
}

/// Two edges of the first quadrant with the cross 1 or -1: one with an extent about 2^30 or
/// more, and one at most half as long.
fn neighbour_edges(rng: &mut Rng) -> ((i64, i64), (i64, i64)) {
    loop {
        let reach = rng.pick(&[(1 << 30) - 1, 1_400_000_000]);
        let a = i64::from(rng.between(reach - 1_000, reach));
        let b = i64::from(rng.between(1, a as i32));
        let (gcd, x, y) = bezout(a, b);
        if gcd != 1 {
            continue;
        }
        // a d - b c = 1 with 0 <= c < a
        let (c, d) = match y {
            y if y <= 0 => (-y, x),
            y => (a - y, b + x),
        };
        if c <= a / 2 {
            return ((a, b), (c, d));
        }
        return ((a, b), (a - c, b - d));
    }
}

/// gcd, x and y with a x + b y = gcd.
fn bezout(a: i64, b: i64) -> (i64, i64, i64) {
    match b {
        0 => (a, 1, 0),
        _ => {
            let (gcd, x, y) = bezout(b, a % b);
            (gcd, y, x - a / b * y)
        }
    }
}

/// One of the eight ways to turn the plane and look at it from behind.
fn turned(way: usize, (x, y): (i64, i64)) -> (i64, i64) {
    let (x, y) = if way & 1 == 0 { (x, y) } else { (y, x) };
    let sign = |bit: usize, z: i64| if way & bit == 0 { z } else { -z };
    (sign(2, x), sign(4, y))
}

/// The corners of a triangle with this edge, about its box's middle.
fn beneath((x, y): (i64, i64)) -> Contour {
    let (left, low) = (-x / 2, -y / 2);
    [(0, 0), (x, y), (0, y)]
        .map(|(u, v)| ((left + u) as i32, (low + v) as i32))
        .to_vec()
}

fn within(rng: &mut Rng, parts: &[Contour]) -> Operand {
    let mut parts = parts.to_vec();
    if rng.once_in(2) {
        parts.push(parts[0].clone());
    }
    Operand {
        bounds: contours::bounds(&parts.concat()),
        table: Table::of(&parts),
    }
}

/// Contours whose numbers stand at a limit: parts, corners, or corners of one
/// contour, `past` more than it.
pub fn at_limit(rng: &mut Rng, past: i32) -> Vec<Contour> {
    let at = |limit: usize| (limit as i64 + i64::from(past)) as usize;
    match rng.below(3) {
        0 => vec![vec![(0, 0)]; at(PARTS)],
        1 => {
            let mut parts = vec![vec![(1, 1); 1_000]; CORNERS / 1_000];
            parts.push(vec![(1, 1); at(CORNERS) - 1_000 * parts.len()]);
            parts
        }
        _ => vec![contours::random(rng, at(CONTOUR), 9)],
    }
}

/// A contour whose winding leaves 64 bits from one of the two starts and not from
/// the other, beside a point: on each side, of a sum and of a difference.
pub fn one_way(rng: &mut Rng) -> Vec<Pair> {
    let contour = loop {
        let contour = contours::at_64_bits(rng);
        if winding_leaves_64_bits(&contour, false) != winding_leaves_64_bits(&contour, true) {
            break contour;
        }
    };
    let far = Operand {
        bounds: contours::bounds(&contour),
        table: Table::of(&[contour]),
    };
    let near = Operand {
        bounds: [0; 4],
        table: Table::of(&[vec![(0, 0)]]),
    };
    let mut out = Vec::new();
    for operation in [Operation::Sum, Operation::Difference] {
        for (left, right) in [(&far, &near), (&near, &far)] {
            out.push(Pair {
                operation,
                left: left.clone(),
                right: right.clone(),
            });
        }
    }
    out
}

/// A result bound of ±(2^30 − 1), and one more, on each side and axis.
pub fn edges() -> Vec<Pair> {
    let mut out = Vec::new();
    for operation in [Operation::Sum, Operation::Difference] {
        for (at, by) in [(0, -1), (1, 1), (2, -1), (3, 1)] {
            for past in [0, 1] {
                let one = |bounds: [i32; 4]| Operand {
                    table: Table::of(&[vec![(0, 0)]]),
                    bounds,
                };
                let mut pair = Pair {
                    operation,
                    left: one([0; 4]),
                    right: one([0; 4]),
                };
                pair.left.bounds[at] = by * EDGE;
                let (other, sign) = match operation {
                    Operation::Sum => (at, by),
                    Operation::Difference => (at ^ 1, -by),
                };
                pair.right.bounds[other] = sign * past;
                out.push(pair);
            }
        }
    }
    out
}

#[cfg(test)]
mod tests {
    use super::*;
    use judge::pairs::fault;
    use judge::table;

    #[test]
    fn good_pairs_are_accepted() {
        let mut rng = Rng::new(31);
        for _ in 0..3_000 {
            let pair = good(&mut rng, 4, 12);
            assert_eq!(
                fault(pair.operation, &pair.left, &pair.right),
                0,
                "{pair:?}"
            );
        }
    }

    #[test]
    fn neighbours_are_accepted_and_all_but_parallel() {
        let mut rng = Rng::new(33);
        let mut widest = 0;
        for _ in 0..3_000 {
            let operation = rng.pick(&[Operation::Sum, Operation::Difference]);
            let pair = neighbours(&mut rng, operation);
            assert_eq!(fault(operation, &pair.left, &pair.right), 0, "{pair:?}");
            let [l, r] = [&pair.left.bounds, &pair.right.bounds];
            let width = |b: &[i32; 4]| i64::from(b[1]) - i64::from(b[0]);
            widest = widest.max(width(l) + width(r));
            let (e, f) = neighbour_edges(&mut rng);
            assert_eq!((e.0 * f.1 - e.1 * f.0).abs(), 1);
        }
        assert!(widest > (1 << 31) - (1 << 26), "{widest}");
    }

    #[test]
    fn limits_are_met_from_both_sides() {
        let mut rng = Rng::new(32);
        for _ in 0..60 {
            for past in [-1, 0] {
                let table = Table::of(&at_limit(&mut rng, past));
                assert_eq!(table::fault(&table), 0);
            }
            let table = Table::of(&at_limit(&mut rng, 1));
            assert_eq!(table::fault(&table), 7);
        }
    }
}
