//! Reads an outline as a drawing program writes it, the commands `M L H V l Z` of an SVG path with
//! spaces and commas between, from standard input, and prints the corners on a grid of 64 steps a
//! millimetre, one a line.
//!
//!     echo 'M 0,0 H 2.5 l 0,1.25 L 0 1 Z' | cargo run --example outline

use bezinkwolu::{import_path, Frame, PathItem};
use std::error::Error;
use std::io::{read_to_string, stdin};

/// The items of a path. A number is read by Rust's own parser; numbers behind a command's first
/// ones are the same command again, and behind a move they are lines, as SVG has it.
fn read(text: &str) -> Result<Vec<PathItem>, Box<dyn Error>> {
    let spaced: String = text
        .chars()
        .map(|c| if "MLHVlZ".contains(c) { format!(" {c} ") } else { c.to_string() })
        .collect();
    let mut words = spaced.split(|c: char| c.is_whitespace() || c == ',').filter(|w| !w.is_empty()).peekable();
    let mut items = Vec::new();
    let mut command = "";
    while let Some(&word) = words.peek() {
        let named = "MLHVlZ".contains(word);
        command = match (named, command) {
            (true, _) => words.next().unwrap_or(word),
            (false, "M") => "L",
            (false, "Z" | "") => return Err(format!("{word} stands where a command should").into()),
            (false, before) => before,
        };
        let mut number = || -> Result<f64, Box<dyn Error>> { Ok(words.next().ok_or("a number is missing")?.parse()?) };
        items.push(match command {
            "M" => PathItem::Move(number()?, number()?),
            "L" => PathItem::Line(number()?, number()?),
            "H" => PathItem::Horizontal(number()?),
            "V" => PathItem::Vertical(number()?),
            "l" => PathItem::RelativeLine(number()?, number()?),
            _ => PathItem::Close,
        });
    }
    Ok(items)
}

fn main() -> Result<(), Box<dyn Error>> {
    let path = read(&read_to_string(stdin())?)?;
    for corner in import_path(&path, Frame::new(0.0, 0.0, 64.0))? {
        println!("{} {}", corner.x, corner.y);
    }
    Ok(())
}
