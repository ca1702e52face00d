//! Inputs as the oracle's programs take them, on one line, for people.

use judge::limits::NONE;
use judge::listing::corners_text;
use judge::mesh::Triangle;
use judge::pairs::Operand;
use judge::path::{Frame, Item};
use judge::table::Table;
use judge::{Contour, Point};

/// How many triangles, contours or numbers of a long list are shown.
const SHOWN: usize = 120;

/// As `meshfile` takes it, a semicolon for each new line.
pub fn mesh(mesh: &[Triangle]) -> String {
    let neighbour = |n: u32| match n {
        NONE => "none".to_string(),
        n => n.to_string(),
    };
    listed(
        mesh.iter()
            .map(|t| {
                let [i, j, k] = t.neighbours.map(neighbour);
                format!("{} {i} {j} {k}", corners_text(&t.points.to_vec()))
            })
            .collect(),
    )
}

pub fn contour(corners: &[Point]) -> String {
    format!("[{}]", corners_text(&corners.to_vec()))
}

pub fn contours(list: &[Contour]) -> String {
    listed(list.iter().map(|c| corners_text(c)).collect())
}

pub fn table(table: &Table) -> String {
    format!(
        "starts {} corners {}",
        numbers(&table.starts),
        numbers(&table.corners)
    )
}

pub fn operand(operand: &Operand) -> String {
    format!("{} bounds {:?}", table(&operand.table), operand.bounds)
}

/// Its items by their kinds, each with both its numbers, and the frame.
pub fn path(path: &[Item], frame: &Frame) -> String {
    let named = |item: &Item| {
        let kinds = ["move", "line", "horizontal", "vertical", "relative line", "close"];
        let kind = kinds.get(item.kind as usize).map(|kind| kind.to_string());
        let kind = kind.unwrap_or_else(|| format!("kind {}", item.kind));
        format!("{kind} {} {}", float(item.x), float(item.y))
    };
    format!(
        "{} frame {} {} steps {}",
        listed(path.iter().map(named).collect()),
        float(frame.x),
        float(frame.y),
        float(frame.steps)
    )
}

/// A finite number by the digits that tell it from every other, and others by their bits.
fn float(bits: u64) -> String {
    match f64::from_bits(bits) {
        value if value.is_finite() => format!("{value:?}"),
        _ => format!("{bits:#x}"),
    }
}

pub fn numbers<T: ToString>(values: &[T]) -> String {
    let shown: Vec<String> = values.iter().take(SHOWN).map(T::to_string).collect();
    format!("[{}{}]", shown.join(" "), more(values.len()))
}

fn listed(mut items: Vec<String>) -> String {
    let count = items.len();
    items.truncate(SHOWN);
    format!("[{}{}]", items.join("; "), more(count))
}

fn more(count: usize) -> String {
    match count.checked_sub(SHOWN) {
        None | Some(0) => String::new(),
        Some(rest) => format!(" .. and {rest} more"),
    }
}
