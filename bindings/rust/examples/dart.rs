//! The dart joined into its convex parts, and the first part plus the last.

use bezinkwolu::{sum_parts, Contour, Error, IntDelaunay, NIL_INDEX};

fn text(contour: Contour) -> String {
    let corners: Vec<String> = contour.iter().map(|p| format!("({},{})", p.x, p.y)).collect();
    corners.join(" ")
}

fn main() -> Result<(), Error> {
    let dart: IntDelaunay = [
        ([(0, 0), (4, 0), (0, 4)], [1, NIL_INDEX, NIL_INDEX]),
        ([(4, 0), (10, -2), (0, 4)], [NIL_INDEX, 0, NIL_INDEX]),
    ]
    .into_iter()
    .collect();
    let parts = dart.to_convex_polygons()?;
    for contour in &parts {
        println!("{}", text(contour));
    }

    let bbox = parts.bbox()?;
    let sums = sum_parts(&parts, bbox, &parts, bbox)?;
    if let Some(contour) = sums.contour(0, parts.len() - 1) {
        println!("sum: {}", text(contour));
    }
    Ok(())
}
