//! Four points a, b, c, d for `cross_product` and `angle_cmp` (b − a beside
//! d − c) and for `area_two` (a, b, c).

use crate::coordinates::{self, EDGE};
use crate::rng::Rng;
use judge::Point;

pub type Four = [Point; 4];

/// Every pair of vectors with components from −reach to reach, from the origin.
pub fn small(reach: i32) -> impl Iterator<Item = Four> {
    let vectors = move || (-reach..=reach).flat_map(move |x| (-reach..=reach).map(move |y| (x, y)));
    vectors().flat_map(move |b| vectors().map(move |d| [(0, 0), b, (0, 0), d]))
}

/// One of every kind, by chance: of every size, at the limits and beyond, zero
/// vectors, equal and opposite directions.
pub fn any(rng: &mut Rng) -> Four {
    match rng.below(8) {
        0 | 1 => [(); 4].map(|()| coordinates::point(rng)),
        2 => {
            let reach = coordinates::reach(rng);
            [(); 4].map(|()| coordinates::point_within(rng, reach))
        }
        3 => corners_of_the_range(rng),
        4 => {
            let mut four = any_in_line(rng);
            if rng.once_in(3) {
                four[1] = four[0];
            }
            if rng.once_in(3) {
                four[3] = four[2];
            }
            four
        }
        5 => any_in_line(rng),
        6 => almost_in_line(rng),
        _ => {
            let mut four = [(); 4].map(|()| coordinates::point(rng));
            for _ in 0..=rng.below(2) {
                let value = coordinates::beyond(rng);
                let at = &mut four[rng.below(4)];
                if rng.once_in(2) {
                    at.0 = value;
                } else {
                    at.1 = value;
                }
            }
            four
        }
    }
}

/// Three points of four for `area_two`: a, b, and d − c seen from a where that
/// fits 32 bits, so that what lies in line still does; else d.
pub fn three([a, b, c, d]: Four) -> [Point; 3] {
    let end = |a: i32, c: i32, d: i32| a.checked_add(d.checked_sub(c)?);
    match (end(a.0, c.0, d.0), end(a.1, c.1, d.1)) {
        (Some(x), Some(y)) => [a, b, (x, y)],
        _ => [a, b, d],
    }
}

/// Every coordinate at ±(2^30 − 1) or 0: the greatest crosses there are.
pub fn corners_of_the_range(rng: &mut Rng) -> Four {
    [(); 4].map(|()| {
        (
            rng.pick(&[EDGE, -EDGE, EDGE, -EDGE, 0]),
            rng.pick(&[EDGE, -EDGE, EDGE, -EDGE, 0]),
        )
    })
}

/// Both vectors along one line: the same direction, opposite ones, or none.
pub fn any_in_line(rng: &mut Rng) -> Four {
    let (dx, dy) = coordinates::point_within(rng, 1 << 10);
    let along = |rng: &mut Rng| {
        let times = coordinates::within(rng, 1 << 10);
        let (x, y) = coordinates::point_within(rng, 1 << 20);
        [(x, y), (x + times * dx, y + times * dy)]
    };
    let [a, b] = along(rng);
    let [c, d] = along(rng);
    [a, b, c, d]
}

/// One end moved by one from the line.
fn almost_in_line(rng: &mut Rng) -> Four {
    let mut four = any_in_line(rng);
    let end = &mut four[rng.below(4)];
    end.0 += rng.between(-1, 1);
    end.1 += rng.between(-1, 1);
    four
}

#[cfg(test)]
mod tests {
    use super::*;
    use judge::limits::point_in_range;
    use judge::mesh::area_two;

    #[test]
    fn small_ones_are_all_there() {
        let all: Vec<Four> = small(3).collect();
        assert_eq!(all.len(), 49 * 49);
        assert!(all.contains(&[(0, 0), (-3, 3), (0, 0), (0, 0)]));
    }

    #[test]
    fn every_kind_occurs() {
        let mut rng = Rng::new(1);
        let fours: Vec<Four> = (0..2_000).map(|_| any(&mut rng)).collect();
        let out = |four: &&Four| !four.iter().all(|&p| point_in_range(p));
        let refused = fours.iter().filter(out).count();
        assert!(refused > 100 && refused < 1_000);
        let at_edge = |four: &&Four| four.iter().any(|p| p.0 == EDGE || p.1 == -EDGE);
        assert!(fours.iter().filter(at_edge).count() > 100);
        let zero = |four: &&Four| four[0] == four[1] || four[2] == four[3];
        assert!(fours.iter().filter(zero).count() > 50);
        assert!(fours.iter().all(|four| four.len() == 4));
    }

    #[test]
    fn in_line_means_a_cross_of_zero() {
        let mut rng = Rng::new(2);
        for _ in 0..500 {
            assert_eq!(area_two(three(any_in_line(&mut rng))), 0);
        }
    }
}
