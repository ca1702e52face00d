//! Doubled areas and bounds of a contour, of a part and of a table: 7, 2, 12 and 11, then
//! the numbers. The limits of a part table bind none of them.

use crate::limits::in_range;
use crate::table::{breaks_starts, leaves_range, Table};
use crate::{first, Fault, Point};

/// The doubled area of a contour given by its numbers, or the fault: 7 for an x without
/// its y, 2, then 11.
pub fn contour_area_two(numbers: &[i32]) -> Result<i64, Fault> {
    let fault = first(&[
        (7, &|| !numbers.len().is_multiple_of(2)),
        (2, &|| !numbers.iter().all(|&v| in_range(v))),
    ]);
    let corners: Vec<Point> = numbers.chunks_exact(2).map(|p| (p[0], p[1])).collect();
    accepted(fault).and_then(|()| in_word(strips(&corners)))
}

/// That of part k of a table: 7, 2, 12 where there is no such part, 11.
pub fn part_area_two(table: &Table, k: u32) -> Result<i64, Fault> {
    accepted(table_fault(table))?;
    let contours = table.contours();
    let contour = contours.get(k as usize).ok_or(12u32)?;
    in_word(strips(contour))
}

/// Those of all parts added: 7, 2, 11.
pub fn table_area_two(table: &Table) -> Result<i64, Fault> {
    accepted(table_fault(table))?;
    in_word(table.contours().iter().map(|c| strips(c)).sum())
}

/// The least and greatest x and the least and greatest y of all corners, 0 where there
/// are none: 7, 2.
pub fn bounds(table: &Table) -> Result<[i32; 4], Fault> {
    accepted(table_fault(table))?;
    let every = |from: usize| table.corners.iter().skip(from).step_by(2);
    let ends = |from| [every(from).min(), every(from).max()].map(|v| v.map_or(0, |&v| v));
    let [[min_x, max_x], [min_y, max_y]] = [ends(0), ends(1)];
    Ok([min_x, max_x, min_y, max_y])
}

/// 7 of starts that no limits bind, then 2.
fn table_fault(table: &Table) -> Fault {
    first(&[(7, &|| breaks_starts(table)), (2, &|| leaves_range(table))])
}

fn accepted(fault: Fault) -> Result<(), Fault> {
    match fault {
        0 => Ok(()),
        fault => Err(fault),
    }
}

/// 11 where it leaves signed 64 bits.
fn in_word(area_two: i128) -> Result<i64, Fault> {
    i64::try_from(area_two).map_err(|_| 11)
}

/// Twice the area to the left of the contour's edges, strip by strip from the y axis:
/// above 0 where it runs counter-clockwise.
fn strips(contour: &[Point]) -> i128 {
    let wide = |v: i32| i128::from(v);
    let next = contour.iter().cycle().skip(1);
    let edges = contour.iter().zip(next);
    edges
        .map(|(a, b)| (wide(a.0) + wide(b.0)) * (wide(b.1) - wide(a.1)))
        .sum()
}

#[cfg(test)]
mod tests {
    use super::*;

    fn dart() -> Table {
        Table::of(&[
            vec![(0, 4), (0, 0), (4, 0)],
            vec![],
            vec![(0, 4), (10, -2), (4, 0)],
        ])
    }

    #[test]
    fn a_part_and_all_parts() {
        let table = dart();
        let parts = [0, 1, 2, 3].map(|k| part_area_two(&table, k));
        // the last runs clockwise
        assert_eq!(parts, [Ok(16), Ok(0), Ok(-16), Err(12)]);
        assert_eq!(table_area_two(&table), Ok(0));
        assert_eq!(bounds(&table), Ok([0, 10, -2, 4]));
        assert_eq!(bounds(&Table::of(&[vec![], vec![]])), Ok([0; 4]));
    }

    #[test]
    fn at_64_bits() {
        let h = 1 << 29;
        let square = [(-h, -h), (h, -h), (h, h), (-h, h)];
        let rounds = |times: usize| square.repeat(times);
        let all = [rounds(3), rounds(1)];
        // 2^61 a round
        assert_eq!(part_area_two(&Table::of(&all), 0), Ok(3 << 61));
        assert_eq!(table_area_two(&Table::of(&all)), Err(11));
        let turned = all.map(|contour| contour.into_iter().rev().collect());
        assert_eq!(table_area_two(&Table::of(&turned)), Ok(i64::MIN));
    }

    #[test]
    fn in_order() {
        let mut table = dart();
        table.corners[0] = 1 << 30;
        assert_eq!(part_area_two(&table, 9), Err(2));
        assert_eq!(contour_area_two(&table.corners), Err(2));
        table.corners.push(0);
        assert_eq!(part_area_two(&table, 9), Err(7));
        assert_eq!(bounds(&table), Err(7));
        assert_eq!(contour_area_two(&table.corners), Err(7));
        assert_eq!(contour_area_two(&[]), Ok(0));
    }
}
