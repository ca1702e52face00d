//! Meshes that the faults accept: small ones exhaustively (good and bad), and
//! random ones of every kind.

use crate::contours;
use crate::coordinates::{self, EDGE};
use crate::rng::Rng;
use judge::limits::{NONE, TRIANGLES};
use judge::mesh::{area_two, Triangle};
use judge::Point;
use std::cmp::Ordering;
use std::collections::HashMap;

pub type Mesh = Vec<Triangle>;

/// How many meshes `small_at` numbers.
pub fn small_count(triangles: u32, width: u64) -> u64 {
    let points = (width * width).pow(3);
    let neighbours = (u64::from(triangles) + 2).pow(3);
    (points * neighbours).pow(triangles)
}

/// Every mesh of so many triangles with its points on a grid of `width` by
/// `width` and neighbours none, in the mesh, or one past it; by number.
pub fn small_at(triangles: u32, width: u64, number: u64) -> Mesh {
    let mut rest = number;
    let mut digit = |base: u64| {
        let d = rest % base;
        rest /= base;
        d
    };
    (0..triangles)
        .map(|_| Triangle {
            points: [(); 3].map(|()| (digit(width) as i32, digit(width) as i32)),
            neighbours: [(); 3].map(|()| match digit(u64::from(triangles) + 2) {
                0 => NONE,
                n => n as u32 - 1,
            }),
        })
        .collect()
}

/// Every mesh of two triangles that have an area, with its points on a grid of 2 by
/// 2 and neighbours none, in the mesh, or one past it.
pub fn two_with_area() -> impl Iterator<Item = Mesh> {
    let each = small_count(2, 2).isqrt();
    let with_area: Vec<u64> = (0..each)
        .filter(|&n| area_two(small_at(2, 2, n)[0].points) > 0)
        .collect();
    let firsts = with_area.clone();
    with_area.into_iter().flat_map(move |second| {
        let firsts = firsts.clone().into_iter();
        firsts.map(move |first| small_at(2, 2, first + each * second))
    })
}

/// So many triangles that have no neighbours.
pub fn apart(count: usize) -> Mesh {
    vec![
        Triangle {
            points: [(0, 0), (1, 0), (0, 1)],
            neighbours: [NONE; 3],
        };
        count
    ]
}

/// Triangles joined across edges that run oppositely, each edge at most once and
/// no two triangles twice.
pub fn linked(triangles: &[[Point; 3]]) -> Mesh {
    let mut mesh: Mesh = triangles
        .iter()
        .map(|&points| Triangle {
            points,
            neighbours: [NONE; 3],
        })
        .collect();
    let mut open: HashMap<(Point, Point), Vec<(usize, usize)>> = HashMap::new();
    for i in 0..mesh.len() {
        for k in 0..3 {
            let (a, b) = (mesh[i].points[(k + 1) % 3], mesh[i].points[(k + 2) % 3]);
            let across = open.entry((b, a)).or_default();
            let free =
                |&(j, _): &(usize, usize)| j != i && !mesh[i].neighbours.contains(&(j as u32));
            match across.iter().position(free) {
                Some(at) => {
                    let (j, l) = across.remove(at);
                    mesh[i].neighbours[k] = j as u32;
                    mesh[j].neighbours[l] = i as u32;
                }
                None => open.entry((a, b)).or_default().push((i, k)),
            }
        }
    }
    mesh
}

/// A strictly convex contour cut into triangles at random.
pub fn polygon(rng: &mut Rng, contour: &[Point]) -> Vec<[Point; 3]> {
    let mut triangles = Vec::new();
    let mut pending = vec![(0, contour.len() - 1)];
    while let Some((i, j)) = pending.pop() {
        if j - i >= 2 {
            let k = i + 1 + rng.below(j - i - 1);
            triangles.push([contour[i], contour[k], contour[j]]);
            pending.extend([(i, k), (k, j)]);
        }
    }
    triangles
}

/// Triangles cut further at whole-number points inside them and on their edges.
pub fn refined(rng: &mut Rng, mut triangles: Vec<[Point; 3]>, times: usize) -> Vec<[Point; 3]> {
    for _ in 0..times {
        let t = triangles[rng.below(triangles.len())];
        let (a, b) = (t[0], t[1]);
        let middle = |p: Point, q: Point| ((p.0 + q.0).div_euclid(2), (p.1 + q.1).div_euclid(2));
        if (a.0 + b.0) % 2 == 0 && (a.1 + b.1) % 2 == 0 && rng.once_in(2) {
            triangles = cut_edge(&triangles, a, b, middle(a, b));
            continue;
        }
        let p = middle(middle(t[0], t[1]), t[2]);
        let pieces = [[t[0], t[1], p], [t[1], t[2], p], [t[2], t[0], p]];
        if pieces.iter().all(|&piece| area_two(piece) > 0) {
            triangles.retain(|&other| other != t);
            triangles.extend(pieces);
        }
    }
    triangles
}

/// Every triangle with the edge a b, either way, cut at m.
fn cut_edge(triangles: &[[Point; 3]], a: Point, b: Point, m: Point) -> Vec<[Point; 3]> {
    let mut out = Vec::new();
    for &t in triangles {
        let on = (0..3).find(|&k| {
            let (p, q) = (t[k], t[(k + 1) % 3]);
            (p, q) == (a, b) || (p, q) == (b, a)
        });
        match on {
            Some(k) => {
                let (p, q, far) = (t[k], t[(k + 1) % 3], t[(k + 2) % 3]);
                out.extend([[p, m, far], [m, q, far]]);
            }
            None => out.push(t),
        }
    }
    out
}

/// A grid of squares, each cut by either diagonal.
pub fn grid(rng: &mut Rng, columns: i32, rows: i32, side: i32) -> Vec<[Point; 3]> {
    let mut triangles = Vec::new();
    for column in 0..columns {
        for row in 0..rows {
            let (x, y) = (column * side, row * side);
            let [a, b, c, d] = [(x, y), (x + side, y), (x + side, y + side), (x, y + side)];
            if rng.once_in(2) {
                triangles.extend([[a, b, c], [a, c, d]]);
            } else {
                triangles.extend([[a, b, d], [b, c, d]]);
            }
        }
    }
    triangles
}

/// A strip between two rows of points, the heights at random.
pub fn strip(rng: &mut Rng, length: i32) -> Vec<[Point; 3]> {
    let heights: Vec<(i32, i32)> = (0..=length)
        .map(|_| (rng.between(-3, 0), rng.between(1, 4)))
        .collect();
    (0..length)
        .flat_map(|i| {
            let (low, high) = heights[i as usize];
            let (next_low, next_high) = heights[i as usize + 1];
            let [a, b] = [(2 * i, low), (2 * i + 2, next_low)];
            let [d, c] = [(2 * i, high), (2 * i + 2, next_high)];
            [[a, b, d], [b, c, d]]
        })
        .collect()
}

/// Every edge of a convex contour with one of its corners.
pub fn fan(contour: &[Point]) -> Vec<[Point; 3]> {
    (1..contour.len() - 1)
        .map(|i| [contour[0], contour[i], contour[i + 1]])
        .collect()
}

/// A mesh that joins to this one contour, which is strictly convex.
pub fn region(contour: &[Point]) -> Mesh {
    let mut turned = contour.to_vec();
    // The last corner of the fan is the last vertex added, where the contour begins.
    turned.rotate_left(1);
    linked(&fan(&turned))
}

/// A fan of so many triangles about a centre, past a full turn and over itself;
/// its ends joined where `closed` (and the spokes come back to the first).
pub fn winding_fan(rng: &mut Rng, spokes: usize, closed: bool) -> Mesh {
    let ring = [
        (3, 0),
        (2, 2),
        (0, 3),
        (-1, 1),
        (-3, 0),
        (-2, -2),
        (0, -3),
        (2, -3),
    ];
    let centre = coordinates::point_within(rng, 50);
    let at = |i: usize| {
        let (x, y) = ring[i % ring.len()];
        (centre.0 + x, centre.1 + y)
    };
    let count = if closed {
        spokes.div_ceil(8) * 8
    } else {
        spokes
    };
    let across = |i: usize| if closed { (i % count) as u32 } else { NONE };
    (0..count)
        .map(|i| Triangle {
            points: [centre, at(i), at(i + 1)],
            neighbours: [
                NONE,
                if i + 1 < count {
                    i as u32 + 1
                } else {
                    across(i + 1)
                },
                if i > 0 {
                    i as u32 - 1
                } else {
                    across(count - 1)
                },
            ],
        })
        .collect()
}

/// Random triangles on a small grid, joined wherever an edge allows: they overlap
/// at will.
pub fn soup(rng: &mut Rng, count: usize, reach: i32) -> Mesh {
    let triangles: Vec<[Point; 3]> = (0..count)
        .map(|_| loop {
            let points = [(); 3].map(|()| coordinates::point_within(rng, reach));
            if area_two(points) > 0 {
                return points;
            }
        })
        .collect();
    linked(&triangles)
}

/// The mesh so many times, each copy by itself, moved or not.
pub fn copies(rng: &mut Rng, mesh: &Mesh, times: usize) -> Mesh {
    let mut out = Mesh::new();
    for _ in 0..times {
        let base = out.len() as u32;
        let (dx, dy) = if rng.once_in(2) {
            (0, 0)
        } else {
            coordinates::point_within(rng, 100)
        };
        out.extend(mesh.iter().map(|t| {
            Triangle {
                points: t.points.map(|(x, y)| (x + dx, y + dy)),
                neighbours: t
                    .neighbours
                    .map(|n| if n == NONE { NONE } else { n + base }),
            }
        }));
    }
    out
}

/// The same mesh with its triangles in another order and each one's vertices
/// begun elsewhere.
pub fn renumbered(rng: &mut Rng, mesh: &Mesh) -> Mesh {
    let mut order: Vec<usize> = (0..mesh.len()).collect();
    rng.shuffle(&mut order);
    let mut place = vec![0u32; mesh.len()];
    for (to, &from) in order.iter().enumerate() {
        place[from] = to as u32;
    }
    order
        .iter()
        .map(|&from| {
            let turn = rng.below(3);
            let mut triangle = mesh[from].clone();
            triangle.points.rotate_left(turn);
            triangle.neighbours.rotate_left(turn);
            for n in &mut triangle.neighbours {
                if *n != NONE {
                    *n = place[*n as usize];
                }
            }
            triangle
        })
        .collect()
}

/// A good mesh of every kind, by chance, of at most so many triangles (at least
/// 20); the empty one among them.
pub fn good(rng: &mut Rng, most: usize) -> Mesh {
    let most = most.clamp(20, TRIANGLES);
    let size = 1 + rng.below(most / 4);
    let mesh = match rng.below(10) {
        9 => match rng.below(3) {
            0 => area_limit(rng, false),
            1 => centroid_limit(rng, Ordering::Equal),
            _ => centroid_limit(rng, Ordering::Greater),
        },
        0 => {
            let reach = rng.pick(&[5, 100, 1 << 20, EDGE]);
            let contour = contours::convex(rng, size + 2, reach);
            linked(&polygon(rng, &contour))
        }
        1 => {
            let contour = contours::convex(rng, size.min(40) + 2, 1 << 12);
            let triangles = polygon(rng, &contour);
            let times = size / 2;
            linked(&refined(rng, triangles, times))
        }
        2 => {
            let rows = 1 + rng.below(8) as i32;
            let columns = (size as i32 / (2 * rows)).max(1);
            let side = rng.between(1, 9);
            linked(&grid(rng, columns, rows, side))
        }
        3 => linked(&strip(rng, size as i32)),
        4 => {
            let contour = contours::convex(rng, size + 2, 1 << 20);
            linked(&fan(&contour))
        }
        5 => {
            let closed = rng.once_in(2);
            winding_fan(rng, size, closed)
        }
        6 => {
            let reach = rng.pick(&[1, 2, 3]);
            soup(rng, size, reach)
        }
        7 => {
            let one = strip(rng, 2);
            let times = 1 + size / 4;
            copies(rng, &linked(&one), times)
        }
        _ => soup(rng, size.min(4), 4),
    };
    match rng.below(60) {
        0 => Mesh::new(),
        1..=40 => renumbered(rng, &mesh),
        _ => mesh,
    }
}

/// A good mesh of as many triangles as there may be, or nearly so, of some kind.
pub fn large(rng: &mut Rng) -> Mesh {
    let mesh = match rng.below(6) {
        0 => linked(&fan(&parabola(TRIANGLES + 2))),
        1 => linked(&polygon(rng, &parabola(TRIANGLES + 2))),
        2 => linked(&strip(rng, TRIANGLES as i32 / 2)),
        3 => linked(&grid(rng, 32, 16, 3)),
        4 => soup(rng, TRIANGLES, 3),
        _ => {
            let one = linked(&strip(rng, 2));
            copies(rng, &one, TRIANGLES / 4)
        }
    };
    match rng.below(2) {
        0 => renumbered(rng, &mesh),
        _ => mesh,
    }
}

/// A strictly convex contour of so many corners.
pub fn parabola(corners: usize) -> Vec<Point> {
    (0..corners as i32).map(|i| (i, i * i)).collect()
}

/// A mesh whose doubled areas add up to exactly 2^63 − 1; or to one more, which is
/// fault 11. The whole range as a square, and what is left in triangles.
pub fn area_limit(rng: &mut Rng, one_more: bool) -> Mesh {
    let mut triangles = polygon(rng, &contours::rounds(EDGE, 1));
    triangles.push([(0, 0), (687_194_767, 0), (0, 25)]);
    if one_more {
        triangles.push([(0, 0), (1, 0), (0, 1)]);
    }
    renumbered(rng, &linked(&triangles))
}

/// One region at the limit of the centroid split, one below or one past it.
pub fn centroid_limit(rng: &mut Rng, than: Ordering) -> Mesh {
    let mut contour = contours::centroid_limit(than);
    let turn = rng.below(contour.len());
    contour.rotate_left(turn);
    let triangles = polygon(rng, &contour);
    renumbered(rng, &linked(&triangles))
}

/// Good meshes of exactly so many triangles: the limit and just below it.
pub fn good_of(rng: &mut Rng, count: usize) -> Mesh {
    let squares = grid(rng, 32, 16, 3);
    renumbered(rng, &linked(&squares[..count.min(squares.len())]))
}

#[cfg(test)]
mod tests {
    use super::*;
    use judge::mesh::fault;

    #[test]
    fn good_ones_are_accepted() {
        let mut rng = Rng::new(11);
        let (mut linked_ones, mut largest) = (0, 0);
        for _ in 0..1_500 {
            let mesh = good(&mut rng, 400);
            assert_eq!(fault(&mesh), 0, "{mesh:?}");
            assert!(mesh.len() <= 400);
            linked_ones += usize::from(mesh.iter().any(|t| t.neighbours != [NONE; 3]));
            largest = largest.max(mesh.len());
        }
        assert!(linked_ones > 1_000 && largest > 100);
        for count in [1_022, 1_023, 1_024] {
            let mesh = good_of(&mut rng, count);
            assert_eq!((mesh.len(), fault(&mesh)), (count, 0));
        }
    }

    #[test]
    fn large_ones_are_accepted() {
        let mut rng = Rng::new(14);
        let mut most = 0;
        for _ in 0..60 {
            let mesh = large(&mut rng);
            assert_eq!(fault(&mesh), 0);
            assert!(mesh.len() >= TRIANGLES - 1, "{}", mesh.len());
            most = most.max(mesh.len());
        }
        assert_eq!(most, TRIANGLES);
    }

    #[test]
    fn areas_meet_their_limit_from_both_sides() {
        let mut rng = Rng::new(13);
        let most = i128::from(i64::MAX);
        let (full, past) = (area_limit(&mut rng, false), area_limit(&mut rng, true));
        assert_eq!(judge::mesh::total_area_two(&full), most);
        assert_eq!(judge::mesh::total_area_two(&past), most + 1);
        assert_eq!((fault(&full), fault(&past)), (0, 11));
    }

    #[test]
    fn small_ones_are_numbered_without_repeats() {
        let count = small_count(1, 2);
        assert_eq!(count, 64 * 27);
        let mut all: Vec<String> = (0..count)
            .map(|n| format!("{:?}", small_at(1, 2, n)))
            .collect();
        all.sort();
        all.dedup();
        assert_eq!(all.len() as u64, count);
        let good = (0..count)
            .filter(|&n| fault(&small_at(1, 2, n)) == 0)
            .count();
        assert_eq!(
            good, 12,
            "four triangles of a square, each from three starts"
        );
    }

    #[test]
    fn every_two_triangles_with_an_area_are_there_once() {
        let all: Vec<Mesh> = two_with_area().collect();
        assert_eq!(all.len(), (12 * 64) * (12 * 64));
        let areas = |mesh: &Mesh| mesh.iter().all(|t| area_two(t.points) > 0);
        assert!(all.iter().all(areas));
        let numbers: std::collections::HashSet<String> =
            all.iter().step_by(97).map(|m| format!("{m:?}")).collect();
        assert_eq!(numbers.len(), all.len().div_ceil(97));
        assert!(all
            .iter()
            .any(|m| fault(m) == 0 && m[0].neighbours.contains(&1)));
    }

    #[test]
    fn winding_fans_lie_over_themselves() {
        let mut rng = Rng::new(12);
        let fan = winding_fan(&mut rng, 20, false);
        assert_eq!(fault(&fan), 0);
        assert_eq!(fan[0].points, fan[8].points);
        let closed = winding_fan(&mut rng, 20, true);
        assert_eq!((closed.len(), fault(&closed)), (24, 0));
        assert!(closed.iter().all(|t| t.neighbours[1] != NONE));
    }
}
