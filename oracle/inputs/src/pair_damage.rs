//! Copies of an accepted pair with one fault, or with two: 7, 2, 9, 8, 10, 20, each
//! on a side that is named; or by chance, an operand without parts on one side and
//! every other fault on the other.

use crate::contours;
use crate::coordinates::{self, EDGE};
use crate::operands::Pair;
use crate::rng::Rng;
use crate::tables::{break_rule, RULES};
use judge::pairs::{Operand, Operation};
use judge::shown::Side;
use judge::table::Table;
use judge::{Contour, Fault};

/// The faults of a pair, in the order in which they are tried.
pub const ORDER: [Fault; 6] = [7, 2, 9, 8, 10, 20];

/// An accepted pair with these faults put in.
pub fn damaged(rng: &mut Rng, pair: &Pair, faults: &[Fault]) -> Pair {
    let [empty, hurt] = rng.pick(&[[Side::Left, Side::Right], [Side::Right, Side::Left]]);
    let side = |fault: &Fault| if *fault == 20 { empty } else { hurt };
    let sided: Vec<(Fault, Side)> = faults.iter().map(|f| (*f, side(f))).collect();
    damaged_on(rng, pair, &sided)
}

/// Each once on its own side, later kinds first; of 10, the side whose bound is at the
/// limit. Not 8 and 20 on one side: a part that winds too far is a part.
pub fn damaged_on(rng: &mut Rng, pair: &Pair, faults: &[(Fault, Side)]) -> Pair {
    let mut out = pair.clone();
    let sides = [Side::Left, Side::Right];
    let all = ORDER.into_iter().rev().flat_map(|f| sides.map(|s| (f, s)));
    for (fault, side) in all.filter(|one| faults.contains(one)) {
        let hurt = match side {
            Side::Left => &mut out.left,
            Side::Right => &mut out.right,
        };
        match fault {
            7 => break_rules(rng, &mut hurt.table),
            2 => out_of_range(rng, hurt),
            9 => break_bounds(rng, hurt),
            8 => wind_too_far(rng, hurt),
            10 => reach_too_far(rng, &mut out, side),
            _ => hurt.table = Table::of(&[]),
        }
    }
    out
}

/// A table against one of its rules or limits.
pub fn break_rules(rng: &mut Rng, table: &mut Table) {
    let rule = rng.pick(&RULES);
    break_rule(rng, table, rule);
}

fn out_of_range(rng: &mut Rng, operand: &mut Operand) {
    let value = coordinates::beyond(rng);
    let corners = operand.table.corners.len();
    if corners > 0 && rng.once_in(2) {
        operand.table.corners[rng.below(corners)] = value;
    } else {
        operand.bounds[rng.below(4)] = value;
    }
}

/// A least bound above a greatest, or a corner outside.
fn break_bounds(rng: &mut Rng, operand: &mut Operand) {
    let axis = 2 * rng.below(2);
    if operand.table.corners.is_empty() || rng.once_in(2) {
        operand.bounds.swap(axis, axis + 1);
        if operand.bounds[axis] <= operand.bounds[axis + 1] {
            operand.bounds[axis] = 1;
            operand.bounds[axis + 1] = 0;
        }
        return;
    }
    let places = operand.table.corner_count();
    let value = operand.table.corners[2 * rng.below(places) + axis / 2];
    if value < EDGE {
        operand.bounds[axis] = value + 1;
        operand.bounds[axis + 1] = operand.bounds[axis + 1].max(value + 1);
    } else {
        operand.bounds[axis + 1] = value - 1;
        operand.bounds[axis] = operand.bounds[axis].min(value - 1);
    }
}

/// One more contour, whose winding leaves 64 bits.
fn wind_too_far(rng: &mut Rng, operand: &mut Operand) {
    let mut parts: Vec<Contour> = operand.table.contours();
    let far = contours::too_far(rng);
    let at = rng.below(parts.len() + 1);
    let [lx, gx, ly, gy] = contours::bounds(&far);
    parts.insert(at, far);
    operand.table = Table::of(&parts);
    let b = operand.bounds;
    operand.bounds = [b[0].min(lx), b[1].max(gx), b[2].min(ly), b[3].max(gy)];
}

/// Bounds widened until the result's leave the range, by one or by more: one side's at
/// the limit, the other's past 0 the same way.
fn reach_too_far(rng: &mut Rng, pair: &mut Pair, side: Side) {
    let axis = 2 * rng.below(2);
    let greatest = rng.below(2);
    let past = rng.pick(&[1, 1, 2, 1 << 20]);
    let mut widen = |which: Side, by: i32| {
        // of a difference, the right operand's least bound makes the greatest
        let turned = which == Side::Right && pair.operation == Operation::Difference;
        let (operand, end) = match which {
            Side::Left => (&mut pair.left, greatest),
            Side::Right if turned => (&mut pair.right, 1 - greatest),
            Side::Right => (&mut pair.right, greatest),
        };
        let bound = &mut operand.bounds[axis + end];
        *bound = if end == 1 {
            (*bound).max(by)
        } else {
            (*bound).min(-by)
        };
    };
    let other = match side {
        Side::Left => Side::Right,
        Side::Right => Side::Left,
    };
    widen(side, EDGE);
    widen(other, past);
}

#[cfg(test)]
mod tests {
    use super::*;
    use crate::first_of;
    use crate::operands;
    use judge::pairs::fault;

    #[test]
    fn each_fault_alone_and_every_two_together() {
        let mut rng = Rng::new(41);
        for _ in 0..300 {
            let pair = operands::good(&mut rng, 3, 8);
            for a in ORDER {
                for b in ORDER {
                    let hurt = damaged(&mut rng, &pair, &[a, b]);
                    let found = fault(hurt.operation, &hurt.left, &hurt.right);
                    assert_eq!(found, first_of(&ORDER, &[a, b]), "{a} and {b}: {hurt:?}");
                }
            }
        }
    }

    #[test]
    fn each_fault_on_either_side_with_each_on_either_side() {
        let mut rng = Rng::new(42);
        let sides = [Side::Left, Side::Right];
        let sided = || ORDER.into_iter().flat_map(|f| sides.map(|side| (f, side)));
        for _ in 0..20 {
            let pair = operands::good(&mut rng, 3, 8);
            for a in sided() {
                for b in sided() {
                    if a.1 == b.1 && [[8, 20], [20, 8]].contains(&[a.0, b.0]) {
                        continue;
                    }
                    let hurt = damaged_on(&mut rng, &pair, &[a, b]);
                    let found = fault(hurt.operation, &hurt.left, &hurt.right);
                    let first = first_of(&ORDER, &[a.0, b.0]);
                    assert_eq!(found, first, "{a:?} and {b:?}: {hurt:?}");
                }
            }
        }
    }
}
