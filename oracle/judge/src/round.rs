//! Document 01's "once round a convex area above zero" and "strictly convex,
//! counter-clockwise", and its order of directions.

use crate::Point;
use std::cmp::Ordering;

type Edge = (i128, i128);

/// Directions from angle 0 up to a full turn: y above 0, or y = 0 with x not
/// below 0, comes first; within a half, a positive cross.
pub fn angle_order(a: Edge, b: Edge) -> Ordering {
    let first_half = |(x, y): Edge| y > 0 || (y == 0 && x >= 0);
    match (first_half(a), first_half(b)) {
        (true, false) => Ordering::Less,
        (false, true) => Ordering::Greater,
        _ => 0.cmp(&cross(a, b)),
    }
}

/// Once round a convex area above zero, whichever way it winds.
pub fn once_round(contour: &[Point]) -> bool {
    let kept: Vec<Point> = (0..contour.len())
        .filter(|&i| contour[i] != contour[(i + contour.len() - 1) % contour.len()])
        .map(|i| contour[i])
        .collect();
    let backwards: Vec<Point> = kept.iter().rev().copied().collect();
    let straight_or_left =
        |a: Edge, b: Edge| cross(a, b) > 0 || (cross(a, b) == 0 && a.0 * b.0 + a.1 * b.1 > 0);
    goes_round(&kept, &straight_or_left) || goes_round(&backwards, &straight_or_left)
}

/// The corners as they stand go once round with every turn above 0.
pub fn strictly_convex(contour: &[Point]) -> bool {
    let repeats =
        (0..contour.len()).any(|i| contour[i] == contour[(i + contour.len() - 1) % contour.len()]);
    !repeats && goes_round(contour, &|a, b| cross(a, b) > 0)
}

/// Every turn passes the test, some turn is above 0, and the edge out is the
/// lesser one at exactly one corner.
fn goes_round(contour: &[Point], turn: &dyn Fn(Edge, Edge) -> bool) -> bool {
    let n = contour.len();
    if n < 3 {
        return false;
    }
    let edges: Vec<Edge> = (0..n)
        .map(|i| {
            let (a, b) = (contour[i], contour[(i + 1) % n]);
            (
                i128::from(b.0) - i128::from(a.0),
                i128::from(b.1) - i128::from(a.1),
            )
        })
        .collect();
    let turns: Vec<(Edge, Edge)> = (0..n).map(|i| (edges[i], edges[(i + 1) % n])).collect();
    let descents = turns
        .iter()
        .filter(|&&(into, out)| angle_order(out, into) == Ordering::Less)
        .count();
    turns.iter().all(|&(into, out)| turn(into, out)) && descents == 1
}

fn cross(a: Edge, b: Edge) -> i128 {
    a.0 * b.1 - a.1 * b.0
}

#[cfg(test)]
mod tests {
    use super::*;

    #[test]
    fn tells_once_round_from_the_rest() {
        let square = [(4, 0), (4, 4), (0, 4), (0, 0), (2, 0), (4, 0)];
        assert!(once_round(&square));
        assert!(!strictly_convex(&square));
        assert!(strictly_convex(&[(0, 0), (4, 0), (0, 4)]));
        assert!(once_round(&[(0, 0), (0, 4), (4, 0)]));
        assert!(!strictly_convex(&[(0, 0), (0, 4), (4, 0)]));
        assert!(!once_round(&[(0, 0), (2, 0)]));
        assert!(!once_round(&[(0, 0), (2, 2), (2, 0), (0, 2)]));
        let twice = [(0, 0), (4, 0), (0, 4), (0, 0), (4, 0), (0, 4)];
        assert!(!once_round(&twice));
        assert!(!once_round(&[(0, 0), (4, 0), (2, 0), (4, 4)]));
        assert!(!once_round(&[]));
    }
}
