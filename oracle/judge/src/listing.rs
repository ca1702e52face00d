//! The listing of the area program: a first line of counts and total doubled
//! area, then a line a part.

use crate::{Contour, Fault};
use std::fmt::Write;

/// The listing of the parts, in full.
pub fn listing(parts: &[Contour]) -> String {
    let areas: Vec<i128> = parts.iter().map(area_two).collect();
    let total: i128 = areas.iter().sum();
    let corners: usize = parts.iter().map(Vec::len).sum();
    let mut text = format!("parts {} corners {corners} area2 {total}\n", parts.len());
    for (i, (part, area)) in parts.iter().zip(&areas).enumerate() {
        let share = area * 10_000 / total;
        writeln!(
            text,
            "{i} {} {area} {share} {}",
            part.len(),
            corners_text(part)
        )
        .expect("a string takes every line");
    }
    text
}

/// The line of a refusal.
pub fn refusal(fault: Fault) -> String {
    format!("refused {fault}\n")
}

/// Corners as `(x,y)`, a space between.
pub fn corners_text(contour: &Contour) -> String {
    let corners: Vec<String> = contour.iter().map(|(x, y)| format!("({x},{y})")).collect();
    corners.join(" ")
}

/// The doubled signed area of a contour.
pub fn area_two(contour: &Contour) -> i128 {
    let n = contour.len();
    let wide = |i: usize| {
        let (x, y) = contour[i % n];
        (i128::from(x), i128::from(y))
    };
    (0..n)
        .map(|i| {
            let (a, b) = (wide(i), wide(i + 1));
            a.0 * b.1 - a.1 * b.0
        })
        .sum()
}

#[cfg(test)]
mod tests {
    use super::*;

    #[test]
    fn document_01s_listing() {
        let parts = [vec![(0, 4), (0, 0), (4, 0)], vec![(0, 4), (4, 0), (10, -2)]];
        let text = "parts 2 corners 6 area2 32\n\
                    0 3 16 5000 (0,4) (0,0) (4,0)\n\
                    1 3 16 5000 (0,4) (4,0) (10,-2)\n";
        assert_eq!(listing(&parts), text);
        assert_eq!(listing(&[]), "parts 0 corners 0 area2 0\n");
    }
}
