//! What is asked of the calls on walks: small contours and places exhaustively,
//! the longest contours, windings at the limits of 64 bits, and random ones of
//! every kind, good and damaged.

use crate::rng::Rng;
use crate::table_calls::Inputs;
use crate::{contours, coordinates, places};
use judge::limits::CONTOUR;
use judge::walk;
use judge::Point;

/// A walk without its contour, as it passes to C. Where it is no segment its ends
/// are any numbers.
#[repr(C)]
#[derive(Debug, Clone, Copy, PartialEq, Eq)]
pub struct Place {
    pub index: u16,
    pub remaining: u16,
    pub reverse: bool,
    pub reflected: bool,
    pub segment: bool,
    pub start: u16,
    pub end: u16,
}

impl Place {
    /// Stands for a place where there is none.
    pub const NOWHERE: Place = Place {
        index: 0,
        remaining: 0,
        reverse: false,
        reflected: false,
        segment: false,
        start: 0,
        end: 0,
    };

    pub fn judged(self) -> walk::Place {
        walk::Place {
            index: self.index.into(),
            reverse: self.reverse,
            remaining: self.remaining.into(),
            reflected: self.reflected,
            segment: self.segment.then_some((self.start.into(), self.end.into())),
        }
    }

    /// A place, with these ends where it is no segment. Numbers past 16 bits are the
    /// largest.
    pub fn of(at: walk::Place, ends: (u16, u16)) -> Place {
        let small = |n: usize| u16::try_from(n).unwrap_or(u16::MAX);
        let (start, end) = match at.segment {
            Some((start, end)) => (small(start), small(end)),
            None => ends,
        };
        Place {
            index: small(at.index),
            remaining: small(at.remaining),
            reverse: at.reverse,
            reflected: at.reflected,
            segment: at.segment.is_some(),
            start,
            end,
        }
    }
}

/// A walk to begin.
#[derive(Debug, Clone, PartialEq, Eq)]
pub struct Begin {
    pub flat: Vec<i32>,
    pub reflected: bool,
}

/// A walk to step, or whose point is asked for.
#[derive(Debug, Clone, PartialEq, Eq)]
pub struct Step {
    pub flat: Vec<i32>,
    pub at: Place,
}

/// A pair to begin.
#[derive(Debug, Clone, PartialEq, Eq)]
pub struct Two {
    pub left: Vec<i32>,
    pub right: Vec<i32>,
}

/// A pair to step.
#[derive(Debug, Clone, PartialEq, Eq)]
pub struct TwoAt {
    pub two: Two,
    pub a: Place,
    pub b: Place,
}

pub fn flat(contour: &[Point]) -> Vec<i32> {
    contour.iter().flat_map(|&(x, y)| [x, y]).collect()
}

/// Contours whose windings are 2^63 − 1, 2^63, −2^63 and −2^63 − 1.
pub fn limit_windings() -> [Vec<Point>; 4] {
    let h = 1 << 29;
    let whole = contours::rounds(h, 4);
    let mut less = whole.clone();
    less.splice(2..3, [(h, h - 1), (h - 1, h)]);
    let mut more = whole.clone();
    more.splice(2..2, [(h, 0), (h + 1, 0), (h, 1)]);
    let back = |contour: &[Point]| contour.iter().rev().copied().collect();
    [less, whole.clone(), back(&whole), back(&more)]
}

/// The longest contour, and one corner more.
fn longest() -> impl Iterator<Item = Vec<i32>> {
    [CONTOUR, CONTOUR + 1]
        .into_iter()
        .map(|corners| (0..2 * corners).map(|i| (i % 7) as i32).collect())
}

/// Numbers of a contour: good ones, or with one left off or out of range.
fn numbers(rng: &mut Rng) -> Vec<i32> {
    let mut flat = good(rng);
    if !flat.is_empty() {
        let at = rng.below(flat.len());
        match rng.below(12) {
            0 => drop(flat.pop()),
            1 => flat[at] = coordinates::beyond(rng),
            _ => {}
        }
    }
    flat
}

fn good(rng: &mut Rng) -> Vec<i32> {
    let reach = coordinates::reach(rng);
    let corners = if rng.once_in(500) { CONTOUR } else { 12 };
    let contour = match rng.below(40) {
        0 => contours::too_far(rng),
        1 => contours::at_64_bits(rng),
        _ => contours::any(rng, corners, reach),
    };
    flat(&contour)
}

/// A place as a caller may make it.
fn place(rng: &mut Rng, corners: usize) -> Place {
    let other = (rng.below(corners + 2) as u16, rng.pick(&[0, 1, u16::MAX]));
    Place::of(places::any(rng, corners), other)
}

/// Every place on a contour of so many corners and one past it.
fn every_place(corners: usize) -> impl Iterator<Item = Place> + Clone {
    let past = corners as u16 + 1;
    let ends = (0..past * past + 1).map(move |e| (e < past * past, e / past, e % past));
    ends.flat_map(move |(segment, start, end)| {
        (0..16 * past).map(move |n| Place {
            index: n / 16,
            remaining: [0, 1, 2, u16::MAX][usize::from(n % 4)],
            reverse: n / 4 % 2 == 1,
            reflected: n / 8 % 2 == 1,
            segment,
            start,
            end,
        })
    })
}

pub fn begins(rng: &mut Rng, count: u64) -> Inputs<'_, Begin> {
    let small = contours::small(2, 4).map(|c| flat(&c));
    let limits = limit_windings().map(|c| flat(&c)).into_iter();
    let fixed = small.chain(limits).chain(longest());
    let both = fixed.flat_map(|flat| {
        [false, true].map(|reflected| Begin {
            flat: flat.clone(),
            reflected,
        })
    });
    let random = (0..count).map(move |_| Begin {
        flat: numbers(rng),
        reflected: rng.once_in(2),
    });
    Box::new(both.chain(random))
}

pub fn steps(rng: &mut Rng, count: u64) -> Inputs<'_, Step> {
    let small = contours::small(2, 3)
        .flat_map(|c| every_place(c.len()).map(move |at| Step { flat: flat(&c), at }));
    let long = longest().flat_map(|flat| {
        [0, 1025, 1026].map(|index| Step {
            flat: flat.clone(),
            at: Place {
                index,
                remaining: 1,
                ..Place::NOWHERE
            },
        })
    });
    let random = (0..count).map(move |_| {
        let flat = numbers(rng);
        let at = place(rng, flat.len() / 2);
        Step { flat, at }
    });
    Box::new(small.chain(long).chain(random))
}

/// Every two of up to four corners on a 2 by 2 grid, and random ones.
pub fn twos(rng: &mut Rng, count: u64) -> Inputs<'_, Two> {
    let small = contours::small(2, 4).flat_map(|left| {
        contours::small(2, 4).map(move |right| Two {
            left: flat(&left),
            right: flat(&right),
        })
    });
    let limits = limit_windings().map(|c| flat(&c)).into_iter();
    let one = vec![0, 0, 2, 0, 0, 2];
    let fixed = limits.chain(longest()).flat_map(move |flat| {
        let two = |left: &[i32], right: &[i32]| Two {
            left: left.to_vec(),
            right: right.to_vec(),
        };
        [two(&flat, &one), two(&one, &flat), two(&[], &flat)]
    });
    let random = (0..count).map(move |_| Two {
        left: numbers(rng),
        right: numbers(rng),
    });
    Box::new(small.chain(fixed).chain(random))
}

/// Small contours with places of every kind, and random ones with places that a
/// caller made up.
pub fn twos_at(rng: &mut Rng, count: u64) -> Inputs<'_, TwoAt> {
    let small = contours::small(2, 2).flat_map(|left| {
        contours::small(2, 2).flat_map(move |right| {
            let two = Two {
                left: flat(&left),
                right: flat(&right),
            };
            let firsts = every_place(left.len()).step_by(3);
            let seconds = every_place(right.len()).cycle().skip(5).step_by(7);
            firsts.zip(seconds).map(move |(a, b)| TwoAt {
                two: two.clone(),
                a,
                b,
            })
        })
    });
    let random = (0..count).map(move |_| {
        let any = if rng.once_in(2) { good } else { numbers };
        let two = Two {
            left: any(rng),
            right: any(rng),
        };
        let a = place(rng, two.left.len() / 2);
        let b = place(rng, two.right.len() / 2);
        TwoAt { two, a, b }
    });
    Box::new(small.chain(random))
}

#[cfg(test)]
mod tests {
    use super::*;
    use judge::walk::{begun, winding};
    use std::collections::BTreeSet;

    #[test]
    fn the_limit_windings_are_at_the_limits() {
        let limit = 1i128 << 63;
        let windings = limit_windings().map(|c| winding(&c, false));
        assert_eq!(windings, [limit - 1, limit, -limit, -limit - 1]);
        let faults = limit_windings().map(|c| begun(&flat(&c), false));
        assert_eq!(faults, [0, 8, 0, 8]);
    }

    #[test]
    fn every_fault_occurs() {
        let mut rng = Rng::new(7);
        let begun: BTreeSet<_> = begins(&mut rng, 3_000)
            .map(|q| begun(&q.flat, q.reflected))
            .collect();
        assert!(begun.into_iter().eq([0, 2, 7, 8, 20]));
        let stepped: BTreeSet<_> = twos_at(&mut rng, 3_000)
            .map(|q| walk::pair_step(&q.two.left, q.a.judged(), &q.two.right, q.b.judged()))
            .collect();
        assert!(stepped.into_iter().eq([0, 2, 7, 23]));
    }

    #[test]
    fn a_place_passes_unchanged() {
        for at in every_place(3) {
            assert_eq!(Place::of(at.judged(), (at.start, at.end)), at);
        }
    }
}
