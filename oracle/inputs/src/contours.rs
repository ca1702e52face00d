//! Contours: small ones exhaustively, and random ones of every kind.

use crate::coordinates::{self, EDGE};
use crate::rng::Rng;
use judge::listing::area_two;
use judge::round::angle_order;
use judge::{Contour, Point};
use std::cmp::Ordering;

/// Every list of up to `length` points on a grid of `width` by `width`.
pub fn small(width: i32, length: usize) -> impl Iterator<Item = Contour> {
    (0..=length).flat_map(move |n| {
        let cells = (width * width) as usize;
        (0..cells.pow(n as u32)).map(move |number| {
            let mut rest = number;
            (0..n)
                .map(|_| {
                    let cell = (rest % cells) as i32;
                    rest /= cells;
                    (cell % width, cell / width)
                })
                .collect()
        })
    })
}

/// Every strictly convex contour, counter-clockwise from its lowest, then leftmost
/// corner, on a grid of `width` by `width`.
pub fn small_convex(width: i32) -> Vec<Contour> {
    let grid = || (0..width).flat_map(|y| (0..width).map(move |x| (x, y)));
    let mut found = Vec::new();
    let mut open: Vec<Contour> = grid().map(|p| vec![p]).collect();
    while let Some(path) = open.pop() {
        let (n, first) = (path.len(), path[0]);
        let left = |a: Point, b: Point, c: Point| area_two(&vec![a, b, c]) > 0;
        if n > 2 && left(path[n - 1], first, path[1]) {
            found.push(path.clone());
        }
        let higher = grid().filter(|&(x, y)| (y, x) > (first.1, first.0));
        let next = higher.filter(|&p| {
            n == 1 || left(path[n - 2], path[n - 1], p) && left(path[n - 1], p, first)
        });
        open.extend(next.map(|p| path.iter().copied().chain([p]).collect()));
    }
    found
}

/// Any points within reach.
pub fn random(rng: &mut Rng, corners: usize, reach: i32) -> Contour {
    (0..corners)
        .map(|_| coordinates::point_within(rng, reach))
        .collect()
}

/// One point, any number of times.
pub fn point(rng: &mut Rng, corners: usize, reach: i32) -> Contour {
    vec![coordinates::point_within(rng, reach); corners]
}

/// Points of one line.
pub fn in_line(rng: &mut Rng, corners: usize, reach: i32) -> Contour {
    let step = (reach / 8).clamp(1, 1 << 20);
    let (dx, dy) = coordinates::point_within(rng, step);
    let times = (reach / (2 * step)).clamp(1, 1 << 9);
    (0..corners)
        .map(|_| {
            let t = rng.between(-times, times);
            (t * dx, t * dy)
        })
        .collect()
}

/// Strictly convex, counter-clockwise, of at most so many corners (at least
/// three; fewer than asked where directions fall together or the reach is
/// small), anywhere in reach, which is at least 1.
pub fn convex(rng: &mut Rng, corners: usize, reach: i32) -> Contour {
    let mut corners = corners.max(3);
    loop {
        let size = (reach / (2 * corners as i32)).max(1);
        let mut edges: Vec<Point> = (1..corners)
            .map(|_| coordinates::point_within(rng, size))
            .collect();
        let sum = edges.iter().fold((0, 0), |s, e| (s.0 + e.0, s.1 + e.1));
        edges.push((-sum.0, -sum.1));
        let contour = contour_of(edges);
        if area_two(&contour) > 0 && fits(&contour, reach) {
            return moved_about(rng, contour, reach);
        }
        corners = (corners - corners / 4).max(3);
    }
}

/// The convex contour whose edges these are, gathered by direction.
fn contour_of(mut edges: Vec<Point>) -> Contour {
    let wide = |e: &Point| (i128::from(e.0), i128::from(e.1));
    edges.retain(|&e| e != (0, 0));
    edges.sort_by(|a, b| angle_order(wide(a), wide(b)));
    let mut gathered: Vec<Point> = Vec::new();
    for e in edges {
        match gathered.last_mut() {
            Some(last) if angle_order(wide(last), wide(&e)).is_eq() => {
                last.0 += e.0;
                last.1 += e.1;
            }
            _ => gathered.push(e),
        }
    }
    let mut at = (0, 0);
    gathered
        .iter()
        .map(|e| {
            let corner = at;
            at = (at.0 + e.0, at.1 + e.1);
            corner
        })
        .collect()
}

/// Least x, greatest x, least y, greatest y; zeros for no corner.
pub fn bounds(contour: &[Point]) -> [i32; 4] {
    let xs = || contour.iter().map(|p| p.0);
    let ys = || contour.iter().map(|p| p.1);
    [
        xs().min().unwrap_or(0),
        xs().max().unwrap_or(0),
        ys().min().unwrap_or(0),
        ys().max().unwrap_or(0),
    ]
}

fn fits(contour: &[Point], reach: i32) -> bool {
    let [lx, gx, ly, gy] = bounds(contour).map(i64::from);
    gx - lx <= 2 * i64::from(reach) && gy - ly <= 2 * i64::from(reach)
}

/// Moved to a random place in reach, or against its limit.
fn moved_about(rng: &mut Rng, contour: Contour, reach: i32) -> Contour {
    let [lx, gx, ly, gy] = bounds(&contour);
    let mut shift = |least: i32, greatest: i32| {
        let (low, high) = (-reach - least, reach - greatest);
        match rng.below(4) {
            0 => low,
            1 => high,
            _ => rng.between(low, high),
        }
    };
    let (dx, dy) = (shift(lx, gx), shift(ly, gy));
    contour.iter().map(|&(x, y)| (x + dx, y + dy)).collect()
}

/// The same area with corners in line and repeated ones added, from any start,
/// either way round: still once round (document 01, demand 3).
pub fn dressed(rng: &mut Rng, contour: &[Point], limit: usize) -> Contour {
    let n = contour.len();
    let mut out: Contour = Vec::new();
    for i in 0..n {
        let (a, b) = (contour[i], contour[(i + 1) % n]);
        let mut room = limit.saturating_sub(out.len() + (n - i));
        out.push(a);
        if room > 0 && rng.once_in(4) {
            out.push(a);
            room -= 1;
        }
        let (dx, dy) = (
            i64::from(b.0) - i64::from(a.0),
            i64::from(b.1) - i64::from(a.1),
        );
        let parts = gcd(dx.unsigned_abs(), dy.unsigned_abs()) as i64;
        if parts > 1 && room > 0 && rng.once_in(2) {
            let at = 1 + (rng.word() % (parts - 1) as u64) as i64;
            let along = |d: i64| (d / parts * at) as i32;
            let p = (a.0 + along(dx), a.1 + along(dy));
            out.push(p);
            if room > 1 && rng.once_in(4) {
                out.push(p);
            }
        }
    }
    let turn = rng.below(out.len());
    out.rotate_left(turn);
    if rng.once_in(2) {
        out.reverse();
    }
    out
}

/// Once round a convex area above zero, dressed, with edges that are often in
/// several parts.
pub fn once_round(rng: &mut Rng, corners: usize, reach: i32) -> Contour {
    let times = if reach >= 60 { rng.pick(&[1, 2, 3]) } else { 1 };
    let mut contour = convex(rng, corners.min(judge::limits::CONTOUR / 2), reach / times);
    for p in &mut contour {
        *p = (p.0 * times, p.1 * times);
    }
    dressed(rng, &contour, judge::limits::CONTOUR)
}

/// A contour that crosses itself: a star of a convex one, by steps of two or
/// more corners.
pub fn crossing(rng: &mut Rng, reach: i32) -> Contour {
    loop {
        let corners = convex(rng, 9, reach);
        let n = corners.len();
        if n >= 5 {
            let step = 2 + rng.below(n - 4);
            return (0..n).map(|i| corners[i * step % n]).collect();
        }
    }
}

/// Contours that are not once round a strictly convex area, or not plainly so: each by
/// name, since chance seldom makes one small enough to see.
pub const LISTED: &[(&str, &[Point])] = &[
    ("empty", &[]),
    ("point", &[(2, 1)]),
    ("point, three times", &[(2, 1), (2, 1), (2, 1)]),
    ("segment", &[(0, 0), (3, 1)]),
    ("level segment, from its right end", &[(4, 0), (0, 0)]),
    ("segment through its middle", &[(0, 0), (2, 2), (4, 4), (2, 2)]),
    ("segment in line, back by another way", &[(0, 0), (6, 0), (2, 0), (4, 0)]),
    ("triangle", &[(0, 0), (3, 0), (1, 2)]),
    ("triangle, clockwise", &[(0, 0), (1, 2), (3, 0)]),
    ("square with repeated corners", &[(0, 0), (0, 0), (2, 0), (2, 2), (2, 2), (2, 2), (0, 2)]),
    ("square with corners in line", &[(1, 0), (2, 0), (2, 1), (2, 2), (1, 2), (0, 2), (0, 1), (0, 0)]),
    ("square, clockwise, in line and repeated", &[(0, 0), (0, 1), (0, 1), (0, 2), (2, 2), (2, 0), (1, 0)]),
    ("triangle with a spike in line", &[(0, 0), (3, 0), (5, 0), (3, 0), (1, 2)]),
    ("arrow, not convex", &[(0, 0), (4, 2), (0, 4), (1, 2)]),
    ("bow tie, no winding", &[(0, 0), (4, 4), (4, 0), (0, 4)]),
    ("bow tie, one half larger", &[(0, 2), (6, 0), (6, 6), (0, 0)]),
    ("bow tie, one half larger, clockwise", &[(0, 0), (6, 6), (6, 0), (0, 2)]),
    ("five-pointed star, twice round", &[(0, 5), (-3, -4), (5, 2), (-5, 2), (3, -4)]),
    ("five-pointed star, clockwise", &[(3, -4), (-5, 2), (5, 2), (-3, -4), (0, 5)]),
    ("square, twice round", &[(0, 0), (2, 0), (2, 2), (0, 2), (0, 0), (2, 0), (2, 2), (0, 2)]),
    ("loop within", &[(0, 0), (8, 0), (8, 8), (2, 8), (2, 3), (5, 3), (5, 6), (0, 6)]),
    ("loop the other way round within", &[(0, 0), (8, 0), (8, 8), (5, 8), (5, 3), (2, 3), (2, 6), (8, 6), (0, 8)]),
    ("spiral", &[(0, 0), (6, 0), (6, 6), (1, 6), (1, 1), (5, 1), (5, 5), (2, 5)]),
    ("two triangles that share a corner", &[(0, 0), (2, 1), (1, 2), (0, 0), (-1, -2), (-2, -1)]),
];

/// Zero winding with an area: a figure eight, or out and back by one way.
pub fn zero_winding(rng: &mut Rng, reach: i32) -> Contour {
    if rng.once_in(2) {
        let (w, h) = (rng.between(1, reach), rng.between(1, reach));
        let mut eight = vec![(-w, -h), (w, h), (w, -h), (-w, h)];
        let turn = rng.below(4);
        eight.rotate_left(turn);
        return eight;
    }
    let corners = 2 + rng.below(4);
    let out = random(rng, corners, reach);
    let back: Contour = out.iter().rev().copied().collect();
    [out, back].concat()
}

/// So many times round a square of this half side, counter-clockwise.
pub fn rounds(half: i32, times: usize) -> Contour {
    [(-half, -half), (half, -half), (half, half), (-half, half)].repeat(times)
}

/// Windings at the limits of 64 bits: just inside and just outside, both ways.
pub fn at_64_bits(rng: &mut Rng) -> Contour {
    let mut contour = match rng.below(4) {
        // 4 rounds of side 2^30 have a winding of exactly 2^63.
        0 => rounds(1 << 29, 4),
        // A corner cut off takes one away: 2^63 − 1.
        1 => {
            let mut cut = rounds(1 << 29, 4);
            let h = 1 << 29;
            cut.splice(2..3, [(h, h - 1), (h - 1, h)]);
            cut
        }
        // Once round the whole range stays inside; twice does not.
        2 => rounds(EDGE, 1 + rng.below(2)),
        _ => {
            let corners = 7 + rng.below(6);
            (0..corners)
                .map(|_| (rng.pick(&[EDGE, -EDGE]), rng.pick(&[EDGE, -EDGE])))
                .collect()
        }
    };
    let turn = rng.below(contour.len());
    contour.rotate_left(turn);
    if rng.once_in(2) {
        contour.reverse();
    }
    contour
}

/// A contour whose winding leaves 64 bits, from any start and either way.
pub fn too_far(rng: &mut Rng) -> Contour {
    let times = 2 + rng.below(20);
    let least = ((1u64 << 60) as f64 / times as f64).sqrt() as i32 + 2;
    let half = rng.between(least, EDGE);
    let mut contour = rounds(half, times);
    let turn = rng.below(contour.len());
    contour.rotate_left(turn);
    if rng.once_in(2) {
        contour.reverse();
    }
    contour
}

/// Five corners with a doubled area of exactly 3,074,457,345,618,258,602, the most
/// that the centroid split takes; one less; or one more, where it falls back to the
/// fan.
pub fn centroid_limit(than: Ordering) -> Contour {
    let (width, height) = (2 * EDGE, 715_827_884);
    let (p, q) = match than {
        Ordering::Less => (114_199, 25_073),
        Ordering::Equal => (1_431_655_763, 2),
        Ordering::Greater => (572_662_305, 5),
    };
    let (x, y) = (-EDGE, 0);
    // A rectangle less the corner with legs p and q.
    vec![
        (x, y),
        (x + width, y),
        (x + width, y + height - q),
        (x + width - p, y + height),
        (x, y + height),
    ]
}

/// Contours that are worth every limit, from each of their corners: a group that
/// ends early, a centre that is not inside, halves, the most that the centroid split
/// takes, one less and one more.
pub fn worth_splitting() -> Vec<Contour> {
    [
        vec![(0, -1), (1, -1), (2, 1), (0, 1), (-1, 0)],
        vec![(0, 0), (1, 0), (1, 1), (0, 1)],
        vec![(0, 0), (4, 0), (4, 4), (0, 4)],
        vec![(0, 0), (3, 0), (3, 3), (0, 3)],
        vec![(0, 0), (2, 0), (3, 1), (3, 2), (2, 3), (0, 3)],
        vec![
            (-1, -3),
            (1, -3),
            (3, -1),
            (3, 1),
            (1, 3),
            (-1, 3),
            (-3, 1),
            (-3, -1),
        ],
        rounds(EDGE, 1),
        centroid_limit(Ordering::Less),
        centroid_limit(Ordering::Equal),
        centroid_limit(Ordering::Greater),
    ]
    .iter()
    .flat_map(|contour| turned(contour))
    .collect()
}

/// The contour from each of its corners.
pub fn turned(contour: &Contour) -> impl Iterator<Item = Contour> + '_ {
    (0..contour.len()).map(|turn| {
        let mut turned = contour.clone();
        turned.rotate_left(turn);
        turned
    })
}

/// One of every kind, by chance, in reach, of at most so many corners.
pub fn any(rng: &mut Rng, corners: usize, reach: i32) -> Contour {
    let n = rng.below(corners + 1);
    let contour = match rng.below(10) {
        0 => random(rng, n, reach),
        1 => point(rng, n, reach),
        2 => in_line(rng, n, reach),
        3 | 4 => once_round(rng, n.max(3), reach),
        5 => convex(rng, n.max(3), reach),
        6 => {
            let mut clockwise = convex(rng, n.max(3), reach);
            clockwise.reverse();
            clockwise
        }
        7 if reach > 20 => crossing(rng, reach),
        8 => zero_winding(rng, reach),
        9 => Vec::new(),
        _ => random(rng, n, 2),
    };
    contour.into_iter().take(corners).collect()
}

pub(crate) fn gcd(a: u64, b: u64) -> u64 {
    if b == 0 {
        a
    } else {
        gcd(b, a % b)
    }
}

#[cfg(test)]
mod tests {
    use super::*;
    use judge::limits::point_in_range;
    use judge::round;
    use judge::walk::{winding, winding_leaves_64_bits};

    #[test]
    fn small_ones_are_all_there_once() {
        let all: Vec<Contour> = small(2, 3).collect();
        assert_eq!(all.len(), 1 + 4 + 16 + 64);
        let mut distinct = all.clone();
        distinct.sort();
        distinct.dedup();
        assert_eq!(distinct.len(), all.len());
    }

    #[test]
    fn convex_ones_are_strictly_convex_and_dressed_ones_once_round() {
        let mut rng = Rng::new(3);
        let (mut in_line_added, mut clockwise) = (0, 0);
        for _ in 0..400 {
            let reach = coordinates::reach(&mut rng);
            let corners = 3 + rng.below(12);
            let contour = convex(&mut rng, corners, reach);
            assert!(round::strictly_convex(&contour), "{contour:?}");
            assert!(contour
                .iter()
                .all(|&(x, y)| x.abs() <= reach && y.abs() <= reach));
            let dressed = once_round(&mut rng, corners, reach);
            assert!(round::once_round(&dressed), "{dressed:?}");
            assert!(dressed.len() <= judge::limits::CONTOUR);
            in_line_added += usize::from(!round::strictly_convex(&dressed));
            clockwise += usize::from(winding(&dressed, false) < 0);
        }
        assert!(in_line_added > 50 && clockwise > 50);
    }

    #[test]
    fn large_convex_ones_reach_the_limit() {
        let mut rng = Rng::new(4);
        let large = convex(&mut rng, judge::limits::CONTOUR, EDGE);
        assert!(round::strictly_convex(&large));
        assert!(large.len() > 1_000);
    }

    #[test]
    fn the_rest_are_as_named() {
        let mut rng = Rng::new(5);
        for _ in 0..300 {
            let reach = coordinates::reach(&mut rng);
            let line = in_line(&mut rng, 6, reach);
            assert_eq!(winding(&line, false), 0);
            assert!(line.iter().all(|&p| point_in_range(p)));
            assert_eq!(winding(&zero_winding(&mut rng, reach), false), 0);
            let points = point(&mut rng, 4, reach);
            assert!(points.iter().all(|&p| p == points[0]));
            let star = crossing(&mut rng, 1_000);
            assert!(!round::once_round(&star), "{star:?}");
            let far = too_far(&mut rng);
            assert!(winding_leaves_64_bits(&far, false) && winding_leaves_64_bits(&far, true));
            assert!(far.iter().all(|&p| point_in_range(p)));
        }
    }

    #[test]
    fn the_centroids_limit_is_met_from_both_sides() {
        for (than, area) in [
            (Ordering::Less, 3_074_457_345_618_258_601),
            (Ordering::Equal, 3_074_457_345_618_258_602),
            (Ordering::Greater, 3_074_457_345_618_258_603),
        ] {
            let contour = centroid_limit(than);
            assert_eq!(area_two(&contour), area);
            assert!(round::strictly_convex(&contour));
            assert!(contour.iter().all(|&p| point_in_range(p)));
        }
    }

    #[test]
    fn small_convex_ones_are_there_once() {
        let mut all = small_convex(4);
        assert!(all.iter().all(|c| round::strictly_convex(c)));
        // every list of up to four corners that is strictly convex, from one of them
        let few = small(3, 4).filter(|c| c.len() > 2 && round::strictly_convex(c));
        let lowest = few.filter(|c| c.iter().all(|p| (c[0].1, c[0].0) <= (p.1, p.0)));
        let of_few = small_convex(3).into_iter().filter(|c| c.len() < 5);
        assert_eq!(of_few.count(), lowest.count());
        let longest = all.iter().map(Vec::len).max();
        assert_eq!((all.len(), longest), (2_719, Some(8)));
        all.sort();
        all.dedup();
        assert_eq!(all.len(), 2_719);
    }

    #[test]
    fn windings_meet_the_limit_from_both_sides() {
        let mut rng = Rng::new(6);
        let near: Vec<Contour> = (0..200).map(|_| at_64_bits(&mut rng)).collect();
        let wound = |w: i128| near.iter().any(|c| winding(c, false) == w);
        assert!(wound(1 << 63) && wound((1 << 63) - 1) && wound(-(1 << 63)));
        let leaves = near
            .iter()
            .filter(|c| winding_leaves_64_bits(c, false))
            .count();
        assert!(leaves > 20 && leaves < 180);
        let differ =
            |c: &&Contour| winding_leaves_64_bits(c, false) != winding_leaves_64_bits(c, true);
        let mut rng = Rng::new(7);
        let many: Vec<Contour> = (0..3_000).map(|_| at_64_bits(&mut rng)).collect();
        assert!(
            many.iter().any(|c| differ(&c)),
            "fault 8 may depend on the operation"
        );
    }
}
