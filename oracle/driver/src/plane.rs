//! The three entry points of the plane: (b − a) cross (d − c), the doubled area
//! of a, b, c, and the order of the directions b − a and d − c. Fault 2 where a
//! coordinate is out of range.

use crate::entry::{simpler_numbers, EntryPoint};
use crate::told::Told;
use i_triangle::int::{expose, reach};
use inputs::plane::{self, Four};
use inputs::rng::Rng;
use judge::limits::point_in_range;
use judge::Point;

/// A function of N points, beside what document 01 and the Rust say of it.
pub struct OfPoints<const N: usize> {
    name: &'static str,
    /// Its input, of four points.
    input: fn(Four) -> [Point; N],
    rattle: fn([Point; N]) -> Told,
    rust: fn([Point; N]) -> Told,
}

/// Each is given the Rattle function that it asks.
pub fn cross_product_beside(rattle: fn(Four) -> Told) -> OfPoints<4> {
    OfPoints {
        name: "cross_product",
        input: |four| four,
        rattle,
        rust: cross_product,
    }
}

pub fn area_two_beside(rattle: fn([Point; 3]) -> Told) -> OfPoints<3> {
    OfPoints {
        name: "area_two",
        input: plane::three,
        rattle,
        rust: area_two,
    }
}

pub fn angle_cmp_beside(rattle: fn(Four) -> Told) -> OfPoints<4> {
    OfPoints {
        name: "angle_cmp",
        input: |four| four,
        rattle,
        rust: angle_cmp,
    }
}

/// What document 01 and the Rust say of the cross.
pub fn cross_product([a, b, c, d]: Four) -> Told {
    judged(&[a, b, c, d], || expose::cross_product(a, b, c, d))
}

/// What they say of the doubled area.
pub fn area_two([a, b, c]: [Point; 3]) -> Told {
    judged(&[a, b, c], || expose::area_two(a, b, c))
}

/// What they say of the directions: −1, 0, 1 for less, equal, greater.
pub fn angle_cmp([a, b, c, d]: Four) -> Told {
    let vector = |p: Point, q: Point| {
        (
            i64::from(q.0) - i64::from(p.0),
            i64::from(q.1) - i64::from(p.1),
        )
    };
    judged(&[a, b, c, d], || {
        reach::angle_cmp_of(vector(a, b), vector(c, d)) as i64
    })
}

fn judged(points: &[Point], value: impl Fn() -> i64) -> Told {
    if points.iter().all(|&p| point_in_range(p)) {
        Told::accepted(value())
    } else {
        Told::refused(2)
    }
}

/// The components that the exhaustive inputs take.
const SMALL: i32 = 3;

/// The input with one coordinate nearer to zero, or with a vector begun at the
/// origin.
fn simpler<const N: usize>(points: &[Point; N]) -> Vec<[Point; N]> {
    let mut out = Vec::new();
    for i in 0..N {
        let with = |point: Point| {
            let mut changed = *points;
            changed[i] = point;
            changed
        };
        let (x, y) = points[i];
        out.extend(simpler_numbers(x).into_iter().map(|x| with((x, y))));
        out.extend(simpler_numbers(y).into_iter().map(|y| with((x, y))));
    }
    out.extend(at_the_origin(points));
    out
}

/// Each vector of two points moved to the origin, where that fits 32 bits and
/// the start was elsewhere.
fn at_the_origin<const N: usize>(points: &[Point; N]) -> Vec<[Point; N]> {
    (0..N / 2)
        .filter_map(|i| {
            let (a, b) = (points[2 * i], points[2 * i + 1]);
            let moved = (b.0.checked_sub(a.0)?, b.1.checked_sub(a.1)?);
            let mut changed = *points;
            changed[2 * i] = (0, 0);
            changed[2 * i + 1] = moved;
            let size = |p: Point| i64::from(p.0).abs() + i64::from(p.1).abs();
            (size(moved) < size(a) + size(b)).then_some(changed)
        })
        .collect()
}

fn show(points: &[Point]) -> String {
    let names = ["a", "b", "c", "d"];
    let each: Vec<String> = names
        .iter()
        .zip(points)
        .map(|(name, (x, y))| format!("{name} ({x},{y})"))
        .collect();
    each.join(" ")
}

impl<const N: usize> EntryPoint for OfPoints<N> {
    type Input = [Point; N];
    type Answer = Told;

    fn name(&self) -> &'static str {
        self.name
    }

    fn faults(&self) -> &'static [u32] {
        &[2]
    }

    fn inputs<'a>(
        &self,
        rng: &'a mut Rng,
        count: u64,
    ) -> Box<dyn Iterator<Item = [Point; N]> + 'a> {
        let random = (0..count).map(move |_| plane::any(rng));
        Box::new(plane::small(SMALL).chain(random).map(self.input))
    }

    fn rattle(&self, input: &[Point; N]) -> Told {
        (self.rattle)(*input)
    }

    fn rust(&self, input: &[Point; N]) -> Told {
        (self.rust)(*input)
    }

    fn fault(&self, answer: &Told) -> u32 {
        answer.fault
    }

    fn simpler(&self, input: &[Point; N]) -> Vec<[Point; N]> {
        simpler(input)
    }

    fn show(&self, input: &[Point; N]) -> String {
        show(input)
    }
}

/// The driver itself, tried on functions of known worth: right ones pass, and
/// each deliberate fault is caught and made small.
#[cfg(test)]
mod tests {
    use super::*;
    use crate::entry::{run, Report};

    const COUNT: u64 = 20_000;

    #[test]
    fn right_functions_pass() {
        for report in [
            run(&cross_product_beside(cross_product), 1, COUNT),
            run(&area_two_beside(area_two), 1, COUNT),
            run(&angle_cmp_beside(angle_cmp), 1, COUNT),
        ] {
            assert!(report.passed(), "{report}");
            assert_eq!(report.compared, COUNT + 49 * 49);
            assert!(report.faults[&2] > 1_000 && report.faults[&0] > 10_000);
        }
    }

    fn caught(report: &Report) -> &str {
        assert!(report.differ > 0 && !report.passed());
        report.smallest.as_ref().expect("a difference is shown")
    }

    /// Document 01's first near miss: opposite edges look equal.
    fn by_cross_alone(four: Four) -> Told {
        let told = cross_product(four);
        Told {
            value: -told.value.signum(),
            ..told
        }
    }

    #[test]
    fn directions_by_the_cross_alone_are_caught() {
        let report = run(&angle_cmp_beside(by_cross_alone), 1, COUNT);
        assert!(caught(&report).starts_with("a (0,0) b (0,-1) c (0,0) d (0,0):"));
    }

    /// One coordinate too few accepted.
    fn refuses_the_edge(three: [Point; 3]) -> Told {
        if three[0].0 == (1 << 30) - 1 {
            return Told::refused(2);
        }
        area_two(three)
    }

    #[test]
    fn a_refusal_at_the_limit_is_caught() {
        let report = run(&area_two_beside(refuses_the_edge), 1, COUNT);
        assert!(caught(&report).starts_with("a (1073741823,0) b (0,0) c (0,0):"));
    }

    /// A sum of 32 bits in place of 64.
    fn wraps(four: Four) -> Told {
        let told = cross_product(four);
        Told {
            value: i64::from(told.value as i32),
            ..told
        }
    }

    #[test]
    fn a_narrow_product_is_caught() {
        let report = run(&cross_product_beside(wraps), 1, COUNT);
        assert!(caught(&report).contains("Rust Told { fault: 0, value: "));
    }

    /// A refusal that leaves a value behind.
    fn refuses_with_a_value(three: [Point; 3]) -> Told {
        let told = area_two(three);
        Told {
            value: if told.fault == 2 { 1 } else { told.value },
            ..told
        }
    }

    #[test]
    fn a_value_beside_a_refusal_is_caught() {
        let report = run(&area_two_beside(refuses_with_a_value), 1, COUNT);
        assert!(caught(&report).contains("1073741824"));
    }

    #[test]
    fn a_run_without_a_fault_or_without_inputs_fails() {
        let report = run(&cross_product_beside(cross_product), 1, 0);
        assert_eq!(report.missing, [2]);
        assert!(!report.passed());
    }
}
