//! The text forms: points as `(x,y)`, two operands for `pairs`, and a mesh for
//! `meshfile`. A `#` starts a comment; empty lines do not count.

use judge::file::Split;
use judge::limits::NONE;
use judge::mesh::Triangle;
use judge::pairs::Operand;
use judge::table::Table;
use judge::{Contour, Point};

/// Two operands, each begun by a line `left LX GX LY GY` or `right LX GX LY GY`
/// (the bounds; left off, they are those of the parts), and a line
/// `part (x,y) (x,y) ..` for each part.
pub fn operands(text: &str) -> Result<(Operand, Operand), String> {
    let mut sides: [Option<(Vec<i32>, Vec<Contour>)>; 2] = [None, None];
    let mut current = None;
    for (number, words) in lines(text) {
        let wrong = |what: &str| format!("line {number}: {what}");
        match words[0] {
            "left" | "right" => {
                let side = usize::from(words[0] == "right");
                let bounds = words[1..]
                    .iter()
                    .map(|w| integer(w))
                    .collect::<Result<_, _>>();
                sides[side] = Some((bounds.map_err(|e| wrong(&e))?, Vec::new()));
                current = Some(side);
            }
            "part" => {
                let contour = words[1..]
                    .iter()
                    .map(|w| point(w))
                    .collect::<Result<_, _>>();
                let side = current.ok_or_else(|| wrong("a part before `left` or `right`"))?;
                let parts = sides[side].as_mut().map(|(_, parts)| parts);
                parts
                    .expect("the side was begun")
                    .push(contour.map_err(|e| wrong(&e))?);
            }
            other => return Err(wrong(&format!("`{other}` is none of left, right, part"))),
        }
    }
    let [left, right] = sides;
    Ok((operand("left", left)?, operand("right", right)?))
}

fn operand(name: &str, side: Option<(Vec<i32>, Vec<Contour>)>) -> Result<Operand, String> {
    let (bounds, parts) = side.ok_or_else(|| format!("no operand `{name}`"))?;
    let bounds = match bounds[..] {
        [] => bounds_of(&parts.concat()),
        [a, b, c, d] => [a, b, c, d],
        _ => return Err(format!("{name}: four bounds, or none")),
    };
    Ok(Operand {
        table: Table::of(&parts),
        bounds,
    })
}

fn bounds_of(corners: &[Point]) -> [i32; 4] {
    let xs = || corners.iter().map(|p| p.0);
    let ys = || corners.iter().map(|p| p.1);
    [xs().min(), xs().max(), ys().min(), ys().max()].map(|b| b.unwrap_or(0))
}

/// A mesh: a line for each triangle, three points and three neighbours, each a
/// number or `none`.
pub fn mesh(text: &str) -> Result<Vec<Triangle>, String> {
    lines(text)
        .map(|(number, words)| triangle(&words).map_err(|e| format!("line {number}: {e}")))
        .collect()
}

fn triangle(words: &[&str]) -> Result<Triangle, String> {
    let [a, b, c, k, l, m] = words else {
        return Err("three points and three neighbours".into());
    };
    let neighbour = |word: &str| match word {
        "none" => Ok(NONE),
        _ => word
            .parse()
            .map_err(|_| format!("`{word}` is no neighbour")),
    };
    Ok(Triangle {
        points: [point(a)?, point(b)?, point(c)?],
        neighbours: [neighbour(k)?, neighbour(l)?, neighbour(m)?],
    })
}

pub fn split(word: &str) -> Result<Split, String> {
    match word {
        "ear" => Ok(Split::Ear),
        "fan" => Ok(Split::Fan),
        "centroid" => Ok(Split::Centroid),
        _ => Err(format!("`{word}` is none of ear, fan, centroid")),
    }
}

fn point(word: &str) -> Result<Point, String> {
    let inner = word.strip_prefix('(').and_then(|w| w.strip_suffix(')'));
    let (x, y) = inner
        .and_then(|w| w.split_once(','))
        .ok_or_else(|| format!("`{word}` is no point; write (x,y)"))?;
    Ok((integer(x)?, integer(y)?))
}

fn integer(word: &str) -> Result<i32, String> {
    word.parse()
        .map_err(|_| format!("`{word}` is no 32-bit number"))
}

/// The words of each line that has any, with its number.
fn lines(text: &str) -> impl Iterator<Item = (usize, Vec<&str>)> {
    text.lines().enumerate().filter_map(|(i, line)| {
        let code = line.split('#').next().unwrap_or("");
        let words: Vec<&str> = code.split_whitespace().collect();
        (!words.is_empty()).then_some((i + 1, words))
    })
}

#[cfg(test)]
mod tests {
    use super::*;

    #[test]
    fn operands_are_read() {
        let text = "left 0 2 0 2 # K\npart (0,0) (2,0) (0,2)\n\nright\npart\npart (-1,5)\n";
        let (left, right) = operands(text).unwrap();
        assert_eq!(left.bounds, [0, 2, 0, 2]);
        assert_eq!(left.table, Table::of(&[vec![(0, 0), (2, 0), (0, 2)]]));
        assert_eq!(right.bounds, [-1, -1, 5, 5]);
        assert_eq!(right.table, Table::of(&[vec![], vec![(-1, 5)]]));
        assert!(operands("left\n").is_err());
        assert!(operands("part (0,0)\n").is_err());
        assert!(operands("left 1\nright\n").is_err());
    }

    #[test]
    fn meshes_are_read() {
        let mesh = mesh("(0,0) (4,0) (0,4) 1 none none\n").unwrap();
        assert_eq!(mesh[0].points, [(0, 0), (4, 0), (0, 4)]);
        assert_eq!(mesh[0].neighbours, [1, NONE, NONE]);
    }
}
