//! The part shown: 7 over both tables, left before right, then 12.

use crate::table::{breaks_rules, Table};
use crate::{first, Fault, Point};

#[derive(Debug, Clone, Copy, PartialEq, Eq)]
pub enum Side {
    Left,
    Right,
}

pub fn fault(left: &Table, right: &Table, side: Side, part: u32) -> Fault {
    let asked = asked(left, right, side);
    first(&[
        (7, &|| breaks_rules(left) || breaks_rules(right)),
        (12, &|| part as usize >= asked.parts()),
    ])
}

/// The corners shown, of tables that keep their rules and a part that is there.
pub fn corners(left: &Table, right: &Table, side: Side, part: u32) -> Vec<Point> {
    asked(left, right, side).contours()[part as usize].clone()
}

fn asked<'a>(left: &'a Table, right: &'a Table, side: Side) -> &'a Table {
    match side {
        Side::Left => left,
        Side::Right => right,
    }
}
