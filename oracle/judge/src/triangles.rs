//! Two counter-clockwise triangles, the second moved to a place: whether they meet
//! (share a point) and whether they overlap (share a point strictly inside both).
//!
//! What they share is a convex area, a segment, a point or nothing. Its corners are
//! corners of one that the other covers, and crossings of an edge of one with an edge of
//! the other strictly inside both edges. Each is asked for by itself, in whole numbers.

use crate::Point;

type Corner = (i128, i128);
type Corners = [Corner; 3];

pub fn meets(a: [Point; 3], b: [Point; 3], place: Point) -> bool {
    let (a, b) = (moved(a, (0, 0)), moved(b, place));
    cross(&a, &b) || !covered(&a, &b).is_empty()
}

/// About a crossing there are points inside both. Else the mean of the covered corners
/// is inside both, unless all of them are on one edge's line, as all that is shared is.
pub fn overlaps(a: [Point; 3], b: [Point; 3], place: Point) -> bool {
    let (a, b) = (moved(a, (0, 0)), moved(b, place));
    let covered = covered(&a, &b);
    let is_left = |edge| covered.iter().any(|&corner| side(edge, corner) > 0);
    cross(&a, &b) || edges(&a).into_iter().chain(edges(&b)).all(is_left)
}

fn moved(triangle: [Point; 3], place: Point) -> Corners {
    triangle.map(|(x, y)| {
        (
            i128::from(x) + i128::from(place.0),
            i128::from(y) + i128::from(place.1),
        )
    })
}

fn edges(&[a, b, c]: &Corners) -> [[Corner; 2]; 3] {
    [[a, b], [b, c], [c, a]]
}

/// Whether an edge of one and an edge of the other cross strictly inside both.
fn cross(a: &Corners, b: &Corners) -> bool {
    let parts =
        |e: [Corner; 2], f: [Corner; 2]| side(e, f[0]).signum() * side(e, f[1]).signum() == -1;
    let each = |e| edges(b).into_iter().any(|f| parts(e, f) && parts(f, e));
    edges(a).into_iter().any(each)
}

/// The corners of each that the other covers, its edges with it.
fn covered(a: &Corners, b: &Corners) -> Vec<Corner> {
    let by = |t: &Corners, p: Corner| edges(t).into_iter().all(|edge| side(edge, p) >= 0);
    let of_a = a.iter().filter(|&&p| by(b, p));
    let of_b = b.iter().filter(|&&p| by(a, p));
    of_a.chain(of_b).copied().collect()
}

/// Above 0 where the point is left of the edge, below 0 where it is right of it.
fn side([a, b]: [Corner; 2], p: Corner) -> i128 {
    (b.0 - a.0) * (p.1 - a.1) - (b.1 - a.1) * (p.0 - a.0)
}

#[cfg(test)]
mod tests {
    use super::*;

    const K: [Point; 3] = [(0, 0), (4, 0), (0, 4)];

    /// Whether they meet and whether they overlap, either way about.
    fn told(a: [Point; 3], b: [Point; 3], place: Point) -> (bool, bool) {
        let back = (-place.0, -place.1);
        let told = (meets(a, b, place), overlaps(a, b, place));
        assert_eq!(told, (meets(b, a, back), overlaps(b, a, back)));
        told
    }

    #[test]
    fn touching_at_a_corner() {
        assert_eq!(told(K, K, (4, 0)), (true, false));
        assert_eq!(told(K, [(0, 0), (1, -1), (1, 1)], (4, 0)), (true, false));
        // a corner on an edge
        assert_eq!(told(K, [(0, 0), (3, 1), (1, 3)], (2, 2)), (true, false));
        assert_eq!(told(K, [(0, 0), (-1, 1), (-1, -1)], (0, 2)), (true, false));
    }

    #[test]
    fn touching_along_an_edge() {
        // the whole edge, a part of it, past its end, and its end alone
        let across = [(4, 0), (4, 4), (0, 4)];
        assert_eq!(told(K, across, (0, 0)), (true, false));
        assert_eq!(told(K, across, (1, -1)), (true, false));
        assert_eq!(told(K, across, (-3, 3)), (true, false));
        assert_eq!(told(K, across, (4, -4)), (true, false));
        assert_eq!(told(K, across, (5, -5)), (false, false));
        assert_eq!(told(K, [(1, 0), (2, -1), (3, 0)], (0, 0)), (true, false));
    }

    #[test]
    fn one_inside_the_other() {
        assert_eq!(told(K, K, (0, 0)), (true, true));
        assert_eq!(told(K, [(0, 0), (1, 0), (0, 1)], (1, 1)), (true, true));
        assert_eq!(told(K, [(0, 0), (1, 0), (0, 1)], (0, 0)), (true, true));
        assert_eq!(told(K, [(-9, -9), (20, 0), (0, 20)], (0, 0)), (true, true));
    }

    #[test]
    fn edges_that_cross() {
        assert_eq!(told(K, [(-1, 1), (5, 1), (5, 2)], (0, 0)), (true, true));
        // no corner of either is covered
        let star = [(4, 3), (-2, 3), (1, -1)];
        assert_eq!(told(K, star, (0, 0)), (true, true));
        // an edge through a corner, and no edges that cross inside both
        assert_eq!(told(K, [(0, 0), (8, 8), (0, 8)], (0, 0)), (true, true));
        assert_eq!(told(K, [(4, 0), (8, 8), (0, 4)], (-1, 0)), (true, true));
    }

    #[test]
    fn apart_and_at_the_limits() {
        assert_eq!(told(K, K, (5, 0)), (false, false));
        assert_eq!(told(K, K, (3, 2)), (false, false));
        let far = (1 << 30) - 1;
        let wide = [(-far, -far), (far, -far), (far, far)];
        assert_eq!(told(wide, wide, (far, -far - 1)), (false, false));
        assert_eq!(told(wide, wide, (far, -far)), (true, false));
        assert_eq!(told(wide, wide, (far - 1, -far)), (true, true));
    }

    // ---- another way: the second clipped by the first's half-planes, in fractions

    /// A whole number over one above 0, in lowest terms.
    type Fraction = (i128, i128);

    fn fraction(n: i128, d: i128) -> Fraction {
        let (mut a, mut b) = (n.abs(), d.abs());
        while b != 0 {
            (a, b) = (b, a % b);
        }
        (d.signum() * n / a, d.abs() / a)
    }

    fn less(a: Fraction, b: Fraction) -> Fraction {
        fraction(a.0 * b.1 - b.0 * a.1, a.1 * b.1)
    }

    fn times(a: Fraction, b: Fraction) -> Fraction {
        fraction(a.0 * b.0, a.1 * b.1)
    }

    type Rational = (Fraction, Fraction);

    fn turn(a: Rational, b: Rational, p: Rational) -> Fraction {
        let left = times(less(b.0, a.0), less(p.1, a.1));
        less(left, times(less(b.1, a.1), less(p.0, a.0)))
    }

    /// What is left of a convex contour on the left of an edge.
    fn clipped(contour: &[Rational], a: Rational, b: Rational) -> Vec<Rational> {
        let mut out = Vec::new();
        for (i, &p) in contour.iter().enumerate() {
            let q = contour[(i + 1) % contour.len()];
            let (at_p, at_q) = (turn(a, b, p), turn(a, b, q));
            if at_p.0 >= 0 {
                out.push(p);
            }
            if at_p.0.signum() * at_q.0.signum() == -1 {
                let over = less(at_p, at_q);
                let share = times(at_p, fraction(over.1, over.0));
                let along = |p, q| less(p, times(share, less(p, q)));
                out.push((along(p.0, q.0), along(p.1, q.1)));
            }
        }
        out
    }

    /// Nothing left, no area, area.
    fn by_clipping(a: [Point; 3], b: [Point; 3]) -> (bool, bool) {
        let whole = |(x, y): Point| ((i128::from(x), 1), (i128::from(y), 1));
        let a = a.map(whole);
        let mut rest = b.map(whole).to_vec();
        for (p, q) in [(a[0], a[1]), (a[1], a[2]), (a[2], a[0])] {
            rest = clipped(&rest, p, q);
        }
        let has_area = (2..rest.len()).any(|k| turn(rest[0], rest[k - 1], rest[k]).0 != 0);
        (!rest.is_empty(), has_area)
    }

    #[test]
    fn every_fifth_pair_on_a_small_grid_is_told_as_clipping_tells() {
        let grid = |n: i32| (n / 4, n % 4);
        let mut all = Vec::new();
        for a in 0..16 {
            for b in a + 1..16 {
                for c in a + 1..16 {
                    let triangle = [grid(a), grid(b), grid(c)];
                    if crate::mesh::area_two(triangle) > 0 {
                        all.push(triangle);
                    }
                }
            }
        }
        assert_eq!(all.len(), 516);
        let mut counts = [0; 3];
        for (i, &a) in all.iter().enumerate() {
            for &b in all.iter().skip(i % 5).step_by(5) {
                let told = (meets(a, b, (0, 0)), overlaps(a, b, (0, 0)));
                assert_eq!(told, by_clipping(a, b), "{a:?} {b:?}");
                counts[usize::from(told.0) + usize::from(told.1)] += 1;
            }
        }
        assert!(counts.iter().all(|&n| n > 2_000), "{counts:?}");
    }
}
