//! What is asked of `placement`: contours and a place, and two meshes and a place. Small
//! tables exhaustively, each rule broken, the limits, and random ones of every kind.

use crate::contours;
use crate::coordinates::{self, EDGE};
use crate::meshes::{self, Mesh};
use crate::operands;
use crate::rng::Rng;
use crate::table_calls::Inputs;
use crate::tables::{self, Rule, RULES};
use judge::table::Table;
use judge::{Contour, Point};

/// Contours, and the place that is asked about.
#[derive(Debug, Clone, PartialEq, Eq)]
pub struct Asked {
    pub table: Table,
    pub place: Point,
}

/// Two meshes, and the place that the second is moved to.
#[derive(Debug, Clone, PartialEq, Eq)]
pub struct Moved {
    pub first: Mesh,
    pub second: Mesh,
    pub place: Point,
}

/// Small ones, ones at the limits and damaged ones, then so many random ones.
pub fn asked(rng: &mut Rng, count: u64) -> Inputs<'_, Asked> {
    let fixed = small().chain(small_twos()).chain(small_tables());
    let fixed = fixed.chain(listed()).chain(limits()).chain(large());
    let damaged = damaged(rng);
    let random = (0..count).map(move |_| any(rng));
    Box::new(fixed.chain(damaged).chain(random))
}

// ---- contours and a place

fn of(contours: &[Contour], place: Point) -> Asked {
    Asked {
        table: Table::of(contours),
        place,
    }
}

/// Every place from `least` to `greatest` each way.
fn grid(least: i32, greatest: i32) -> impl Iterator<Item = Point> + Clone {
    (least..=greatest).flat_map(move |x| (least..=greatest).map(move |y| (x, y)))
}

/// Every contour of up to so many corners on a 2 by 2 grid, three times as large, so
/// that there are places inside and on each edge.
fn tripled(corners: usize) -> impl Iterator<Item = Contour> {
    let tripled = |contour: Contour| contour.iter().map(|&(x, y)| (3 * x, 3 * y)).collect();
    contours::small(2, corners).map(tripled)
}

/// Every contour of up to four corners by each place in it and about it, alone and among
/// others: an empty one, a point and a triangle.
fn small() -> impl Iterator<Item = Asked> {
    tripled(4).flat_map(|contour| {
        let triangle = vec![(0, 0), (2, 1), (1, 2)];
        let among = [vec![], vec![(4, 4)], contour.clone(), triangle, vec![]];
        let both = move |place| [of(&[contour.clone()], place), of(&among, place)];
        grid(-1, 4).flat_map(both)
    })
}

/// Every two contours of up to three corners by places of every kind.
fn small_twos() -> impl Iterator<Item = Asked> {
    tripled(3).flat_map(|a| {
        tripled(3).flat_map(move |b| {
            let two = [a.clone(), b];
            [(1, 1), (2, 2), (0, 3), (1, 0), (3, 4)].map(|place| of(&two, place))
        })
    })
}

/// Every small list of starts with every small list of numbers.
fn small_tables() -> impl Iterator<Item = Asked> {
    let places = [(-2, -1), (0, 1), (EDGE + 1, 0)];
    tables::small(4, 4, 6).flat_map(move |table| {
        places.map(|place| Asked {
            table: table.clone(),
            place,
        })
    })
}

/// The listed contours by each place in them and about them.
fn listed() -> impl Iterator<Item = Asked> {
    let all = contours::LISTED.iter();
    all.flat_map(|(_, contour)| grid(-6, 9).map(move |place| of(&[contour.to_vec()], place)))
}

/// Numbers about both ends of the range, and those that are no one's neighbours.
const EDGES: [i32; 11] = [
    i32::MIN,
    -EDGE - 2,
    -EDGE - 1,
    -EDGE,
    1 - EDGE,
    0,
    EDGE - 1,
    EDGE,
    EDGE + 1,
    EDGE + 2,
    i32::MAX,
];

/// Places about the ends of the range by contours as wide as it, and one number of a
/// contour about the ends by a place in range.
fn limits() -> impl Iterator<Item = Asked> {
    let places = || EDGES.iter().flat_map(|&x| EDGES.map(move |y| (x, y)));
    let square = contours::rounds(EDGE, 1);
    let clockwise: Contour = square.iter().rev().copied().collect();
    let wide = [
        square.clone(),
        clockwise,
        square[..3].to_vec(),
        vec![square[1], square[3]],
        vec![square[0], square[2], square[2]],
        vec![square[2]],
        vec![(-EDGE, 0), (EDGE, 0)],
        vec![(-EDGE, EDGE - 1), (0, -EDGE), (EDGE, EDGE)],
        vec![],
    ];
    let by_place = wide
        .into_iter()
        .flat_map(move |contour| places().map(move |place| of(&[contour.clone()], place)));
    let by_corner = (0..8).flat_map(move |at| {
        let square = square.clone();
        EDGES.into_iter().flat_map(move |number| {
            let mut table = Table::of(&[square.clone(), vec![]]);
            table.corners[at] = number;
            let places = [(0, 0), (EDGE, EDGE), (-EDGE, 1 - EDGE), (0, EDGE + 1)];
            places.map(|place| Asked {
                table: table.clone(),
                place,
            })
        })
    });
    by_place.chain(by_corner)
}

/// Tables at the limits of part tables and past them, which do not bind here, and one of
/// many contours of which only the last covers a place.
fn large() -> impl Iterator<Item = Asked> {
    let mut many = vec![vec![(0, 0), (1, 0), (0, 1)]; 20_000];
    many.push(vec![(5, 5), (9, 5), (5, 9)]);
    let long = meshes::parabola(3_000);
    let tables = tables::limits().into_iter();
    let tables = tables.chain([Table::of(&many), Table::of(&[long])]);
    tables.flat_map(|table| {
        [(0, 0), (1, 1), (6, 6), (7, 7), (7, 8), (1_000, 1_000_001)].map(|place| Asked {
            table: table.clone(),
            place,
        })
    })
}

/// How often each two damages are put together.
const TIMES: usize = 20;

/// Each rule broken alone, with every other, and with a place out of range.
fn damaged(rng: &mut Rng) -> Vec<Asked> {
    let rules: Vec<Rule> = RULES.into_iter().chain([Rule::OffRange]).collect();
    let mut out = Vec::new();
    for (i, &a) in rules.iter().enumerate() {
        for &b in &rules[i..] {
            for turn in 0..TIMES {
                let table = tables::broken(rng, &[a, b]);
                let mut place = place(rng, &[]);
                if turn % 2 == 1 {
                    place.0 = coordinates::beyond(rng);
                }
                if turn % 4 > 1 {
                    place.1 = coordinates::beyond(rng);
                }
                out.push(Asked { table, place });
            }
        }
    }
    out
}

/// A random one: contours of every kind, few or many, or a table with a rule or two
/// broken.
pub fn any(rng: &mut Rng) -> Asked {
    if rng.once_in(6) {
        let table = tables::any(rng);
        let place = place(rng, &[]);
        return Asked { table, place };
    }
    let reach = coordinates::reach(rng);
    let (most, corners) = match rng.below(300) {
        0 => (2_500, 5),
        1..=9 => (100, 20),
        10..=19 => (3, 400),
        20..=199 => (1, 9),
        _ => (6, 9),
    };
    let contours = match rng.below(3) {
        0 => {
            let count = 1 + rng.below(most);
            let convex = |_| contours::convex(rng, corners, reach);
            (0..count).map(convex).collect()
        }
        _ => operands::parts(rng, most, corners, reach),
    };
    let place = place(rng, &contours);
    of(&contours, place)
}

/// A place by one of these contours: a corner, on an edge, between corners, or just
/// beside; seldom any, or out of range.
pub fn place(rng: &mut Rng, contours: &[Contour]) -> Point {
    let all: Vec<&Contour> = contours.iter().filter(|c| !c.is_empty()).collect();
    if all.is_empty() || rng.once_in(12) {
        return match rng.below(4) {
            0 => (coordinates::beyond(rng), coordinates::any(rng)),
            1 => (coordinates::any(rng), coordinates::beyond(rng)),
            _ => coordinates::point(rng),
        };
    }
    let contour = all[rng.below(all.len())];
    let at = rng.below(contour.len());
    let (a, b) = (contour[at], contour[(at + 1) % contour.len()]);
    let (x, y) = match rng.below(5) {
        0 => a,
        1 | 2 => on_edge(rng, a, b),
        3 => mean(contour),
        _ => {
            let [lx, gx, ly, gy] = contours::bounds(contour);
            (rng.between(lx, gx), rng.between(ly, gy))
        }
    };
    match rng.below(2) {
        0 => (x, y),
        _ => (x + rng.between(-1, 1), y + rng.between(-1, 1)),
    }
}

/// A whole-number point of an edge, its ends among them.
fn on_edge(rng: &mut Rng, a: Point, b: Point) -> Point {
    let (dx, dy) = (
        i64::from(b.0) - i64::from(a.0),
        i64::from(b.1) - i64::from(a.1),
    );
    let parts = contours::gcd(dx.unsigned_abs(), dy.unsigned_abs()).max(1) as i64;
    let at = (rng.word() % (parts as u64 + 1)) as i64;
    let along = |from: i32, d: i64| (i64::from(from) + d / parts * at) as i32;
    (along(a.0, dx), along(a.1, dy))
}

/// The mean of the corners, rounded down: inside, where there is an inside.
fn mean(contour: &[Point]) -> Point {
    let of = |number: fn(&Point) -> i32| {
        let sum: i64 = contour.iter().map(|p| i64::from(number(p))).sum();
        sum.div_euclid(contour.len() as i64) as i32
    };
    (of(|p| p.0), of(|p| p.1))
}

// ---- meshes

/// A good mesh of few triangles, of small numbers or of those that a difference can
/// have at the most.
pub fn mesh(rng: &mut Rng) -> Mesh {
    match rng.below(8) {
        0 => {
            let count = 1 + rng.below(3);
            meshes::soup(rng, count, (1 << 28) + (1 << 27))
        }
        1 => {
            let corners = 3 + rng.below(8);
            let contour = contours::convex(rng, corners, 1 << 29);
            let triangles = meshes::polygon(rng, &contour);
            meshes::linked(&triangles)
        }
        2..=4 => {
            let count = 1 + rng.below(4);
            meshes::soup(rng, count, 3)
        }
        5 => meshes::good(rng, 60),
        _ => meshes::good(rng, 20),
    }
}

#[cfg(test)]
mod tests {
    use super::*;
    use judge::placement::{fault, placement};
    use std::collections::BTreeMap;

    /// How often each fault, or else placement, occurs.
    fn tally(all: impl Iterator<Item = Asked>) -> BTreeMap<(u32, u32), usize> {
        let mut out = BTreeMap::new();
        for Asked { table, place } in all {
            let told = match fault(&table, place) {
                0 => (0, placement(&table, place)),
                fault => (fault, 0),
            };
            *out.entry(told).or_default() += 1;
        }
        out
    }

    #[test]
    fn every_placement_and_fault_occurs_often_before_the_random_ones_and_in_them() {
        let mut rng = Rng::new(131);
        let before = tally(asked(&mut rng, 0));
        let after = tally((0..3_000).map(|_| any(&mut rng)));
        for told in [(0, 0), (0, 1), (0, 2), (2, 0), (7, 0)] {
            assert!(before[&told] >= 200, "{told:?}: {before:?}");
            assert!(after[&told] >= 100, "{told:?}: {after:?}");
        }
        assert_eq!((before.len(), after.len()), (5, 5));
    }

    #[test]
    fn places_lie_on_edges() {
        let mut rng = Rng::new(132);
        for _ in 0..1_000 {
            let a = coordinates::point(&mut rng);
            let b = coordinates::point(&mut rng);
            let table = Table::of(&[vec![a, b]]);
            assert_eq!(placement(&table, on_edge(&mut rng, a, b)), 1);
        }
    }

    #[test]
    fn meshes_are_accepted() {
        let mut rng = Rng::new(133);
        for _ in 0..2_000 {
            assert_eq!(judge::mesh::fault(&mesh(&mut rng)), 0);
        }
    }
}
