//! The faults of all pairs: 7, 2, 9, 8, 10, 20. (22 and 21 are in `room`.)

use crate::limits::{in_range, COORDINATE};
use crate::table::{breaks_rules, leaves_range, Table};
use crate::walk::winding_leaves_64_bits;
use crate::{first, Fault};

/// A part table with the bounds of its original source: least x, greatest x,
/// least y, greatest y.
#[derive(Debug, Clone, PartialEq, Eq)]
pub struct Operand {
    pub table: Table,
    pub bounds: [i32; 4],
}

#[derive(Debug, Clone, Copy, PartialEq, Eq)]
pub enum Operation {
    Sum,
    Difference,
}

pub fn fault(operation: Operation, left: &Operand, right: &Operand) -> Fault {
    let either = |test: &dyn Fn(&Operand) -> bool| test(left) || test(right);
    first(&[
        (7, &|| either(&|o| breaks_rules(&o.table))),
        (2, &|| {
            either(&|o| leaves_range(&o.table) || !o.bounds.iter().all(|&b| in_range(b)))
        }),
        (9, &|| either(&breaks_bounds)),
        (8, &|| {
            winds_too_far(left, false) || winds_too_far(right, operation == Operation::Difference)
        }),
        (10, &|| result_leaves_range(operation, left.bounds, right.bounds)),
        (20, &|| either(&|o| o.table.parts() == 0)),
    ])
}

/// The bounds of the result, in the operands' order.
pub fn result_bounds(operation: Operation, left: [i32; 4], right: [i32; 4]) -> [i64; 4] {
    let [al, ag, bl, bg] = left.map(i64::from);
    let [cl, cg, dl, dg] = right.map(i64::from);
    match operation {
        Operation::Sum => [al + cl, ag + cg, bl + dl, bg + dg],
        Operation::Difference => [al - cg, ag - cl, bl - dg, bg - dl],
    }
}

/// 10: a result bound out of range.
pub fn result_leaves_range(operation: Operation, left: [i32; 4], right: [i32; 4]) -> bool {
    let limit = i64::from(COORDINATE);
    let bounds = result_bounds(operation, left, right);
    bounds.iter().any(|&b| b <= -limit || limit <= b)
}

/// 9: a least bound above a greatest, or a corner outside its bounds.
pub fn breaks_bounds(operand: &Operand) -> bool {
    let [least_x, greatest_x, least_y, greatest_y] = operand.bounds;
    least_x > greatest_x
        || least_y > greatest_y
        || operand
            .table
            .corners
            .chunks(2)
            .any(|p| p[0] < least_x || p[0] > greatest_x || p[1] < least_y || p[1] > greatest_y)
}

/// 8, over every contour of one operand.
fn winds_too_far(operand: &Operand, reflected: bool) -> bool {
    operand
        .table
        .contours()
        .iter()
        .any(|contour| winding_leaves_64_bits(contour, reflected))
}
