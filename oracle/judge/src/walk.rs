//! One walk and a pair's step. Begun: 7, 2, 8, 20, a pair over both. Stepped: 7, 23,
//! 2 at its place or the next. Its point: 7, 23, 2 at its place. A pair's step: 7,
//! 23, 2 over both.

use crate::limits::{in_range, point_in_range, CONTOUR};
use crate::{first, Fault, Point};

/// A walk without its contour. A walk of a contour of zero winding goes out and
/// back between the two ends of `segment`.
#[derive(Debug, Clone, Copy, PartialEq, Eq)]
pub struct Place {
    pub index: usize,
    pub reverse: bool,
    pub remaining: usize,
    pub reflected: bool,
    pub segment: Option<(usize, usize)>,
}

/// A walk begun on a flat contour (x, y in turn).
pub fn begun(flat: &[i32], reflected: bool) -> Fault {
    first(&[
        (7, &|| breaks_length(flat)),
        (2, &|| !flat.iter().all(|&v| in_range(v))),
        (8, &|| winding_leaves_64_bits(&corners(flat), reflected)),
        (20, &|| flat.is_empty()),
    ])
}

/// Both walks of a pair begun, the second reflected or not.
pub fn pair_begun(a: &[i32], b: &[i32], reflected: bool) -> Fault {
    first(&[
        (7, &|| breaks_length(a) || breaks_length(b)),
        (2, &|| !a.iter().chain(b).all(|&v| in_range(v))),
        (8, &|| {
            winding_leaves_64_bits(&corners(a), false)
                || winding_leaves_64_bits(&corners(b), reflected)
        }),
        (20, &|| a.is_empty() || b.is_empty()),
    ])
}

/// A walk stepped: its point and edge, and the place after.
pub fn stepped(flat: &[i32], at: Place) -> Fault {
    first(&[
        (7, &|| breaks_length(flat)),
        (23, &|| at.remaining == 0 || is_off(flat, at)),
        (2, &|| {
            let corners = corners(flat);
            let next = next_place(corners.len(), at);
            !point_in_range(corners[at.index]) || !point_in_range(corners[next])
        }),
    ])
}

/// A walk's point alone.
pub fn point(flat: &[i32], at: Place) -> Fault {
    first(&[
        (7, &|| breaks_length(flat)),
        (23, &|| is_off(flat, at)),
        (2, &|| !point_in_range(corners(flat)[at.index])),
    ])
}

/// A pair's step. A walk with no step left stands still while the other steps.
pub fn pair_step(a: &[i32], at_a: Place, b: &[i32], at_b: Place) -> Fault {
    first(&[
        (7, &|| breaks_length(a) || breaks_length(b)),
        (23, &|| is_off(a, at_a) || is_off(b, at_b)),
        (2, &|| !a.iter().chain(b).all(|&v| in_range(v))),
    ])
}

/// 8: the winding's running total, as the walk forms it, leaves signed 64 bits.
/// Crosses of neighbouring corners, seen from the start, in table order.
pub fn winding_leaves_64_bits(contour: &[Point], reflected: bool) -> bool {
    let mut total = 0i128;
    windings(contour, reflected).any(|cross| {
        total += cross;
        i64::try_from(total).is_err()
    })
}

/// The winding, whole.
pub fn winding(contour: &[Point], reflected: bool) -> i128 {
    windings(contour, reflected).sum()
}

fn windings(contour: &[Point], reflected: bool) -> impl Iterator<Item = i128> + '_ {
    let n = contour.len();
    let start = start(contour, reflected).unwrap_or(0);
    let seen = move |i: usize| {
        let (o, p) = (contour[start], contour[i % n]);
        (
            i128::from(p.0) - i128::from(o.0),
            i128::from(p.1) - i128::from(o.1),
        )
    };
    (start..start + n).map(move |i| {
        let (a, b) = (seen(i), seen(i + 1));
        a.0 * b.1 - a.1 * b.0
    })
}

/// Where a walk starts: the lowest corner, then leftmost, first of equals; a
/// reflected walk at the highest, then rightmost, last of equals.
pub fn start(contour: &[Point], reflected: bool) -> Option<usize> {
    let mut best: Option<usize> = None;
    for (i, &(x, y)) in contour.iter().enumerate() {
        let better = best.is_none_or(|b| {
            let (bx, by) = contour[b];
            if reflected {
                (y, x) >= (by, bx)
            } else {
                (y, x) < (by, bx)
            }
        });
        if better {
            best = Some(i);
        }
    }
    best
}

/// The place after: the next corner in the walk's direction, or the segment's
/// other end. (From a place that is neither end, the segment's first.)
pub fn next_place(corners: usize, at: Place) -> usize {
    match at.segment {
        Some((first, second)) if at.index == first => second,
        Some((first, _)) => first,
        None if at.reverse => (at.index + corners - 1) % corners,
        None => (at.index + 1) % corners,
    }
}

fn breaks_length(flat: &[i32]) -> bool {
    !flat.len().is_multiple_of(2) || flat.len() / 2 > CONTOUR
}

/// The place or either segment end is not a corner of the contour.
fn is_off(flat: &[i32], at: Place) -> bool {
    let count = flat.len() / 2;
    let ends = at.segment.is_some_and(|(a, b)| a >= count || b >= count);
    at.index >= count || ends
}

fn corners(flat: &[i32]) -> Vec<Point> {
    flat.chunks(2).map(|p| (p[0], p[1])).collect()
}

#[cfg(test)]
mod tests {
    use super::*;

    /// Four times round a square of side 2^30: the doubled areas are 2^63.
    fn four_rounds() -> Vec<Point> {
        let h = 1 << 29;
        [(-h, -h), (h, -h), (h, h), (-h, h)].repeat(4)
    }

    #[test]
    fn two_to_the_63_leaves_and_its_negative_does_not() {
        let mut contour = four_rounds();
        assert_eq!(winding(&contour, false), 1 << 63);
        assert!(winding_leaves_64_bits(&contour, false));
        assert!(winding_leaves_64_bits(&contour, true));
        contour.reverse();
        assert_eq!(winding(&contour, false), -(1 << 63));
        assert!(!winding_leaves_64_bits(&contour, false));
    }

    #[test]
    fn starts_take_the_first_and_the_last_of_equals() {
        let contour = [(1, 0), (0, 0), (0, 2), (0, 0), (0, 2), (-5, 2)];
        assert_eq!(start(&contour, false), Some(1));
        assert_eq!(start(&contour, true), Some(4));
        assert_eq!(start(&[], false), None);
    }

    #[test]
    fn each_fault_by_hand() {
        let at = Place {
            index: 0,
            reverse: false,
            remaining: 3,
            reflected: false,
            segment: None,
        };
        let flat = [0, 0, 2, 0, 0, 2];
        assert_eq!(begun(&flat, false), 0);
        assert_eq!(begun(&flat[..5], false), 7);
        assert_eq!(begun(&[0; 2054], false), 7);
        assert_eq!(begun(&[0; 2052], false), 0);
        assert_eq!(begun(&[0, 1 << 30], true), 2);
        assert_eq!(begun(&[], false), 20);
        assert_eq!(pair_begun(&flat, &flat, true), 0);
        assert_eq!(pair_begun(&[1 << 30, 0], &flat[..5], false), 7);
        assert_eq!(pair_begun(&[], &[1 << 30, 0], false), 2);
        let four: Vec<i32> = four_rounds().iter().flat_map(|p| [p.0, p.1]).collect();
        assert_eq!(pair_begun(&[], &four, false), 8);
        assert_eq!(pair_begun(&flat, &[], false), 20);
        assert_eq!(stepped(&flat, at), 0);
        assert_eq!(stepped(&flat, Place { remaining: 0, ..at }), 23);
        assert_eq!(stepped(&flat, Place { index: 3, ..at }), 23);
        assert_eq!(
            stepped(
                &flat,
                Place {
                    segment: Some((0, 3)),
                    ..at
                }
            ),
            23
        );
        assert_eq!(stepped(&[], at), 23);
        assert_eq!(stepped(&[0, 0, 0, 0, 1 << 30, 0], at), 0);
        assert_eq!(
            stepped(
                &[0, 0, 0, 0, 1 << 30, 0],
                Place {
                    reverse: true,
                    ..at
                }
            ),
            2
        );
        assert_eq!(point(&flat, Place { remaining: 0, ..at }), 0);
        assert_eq!(point(&[0, 0, 1 << 30, 0], at), 0);
        assert_eq!(point(&[1 << 30, 0], at), 2);
        let done = Place { remaining: 0, ..at };
        assert_eq!(pair_step(&flat, done, &flat, done), 0);
        assert_eq!(pair_step(&flat, done, &[0, 0, 0, 0, 1 << 30, 0], at), 2);
        assert_eq!(pair_step(&flat, at, &[], at), 23);
    }
}
