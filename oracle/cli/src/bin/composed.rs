//! `composed`: the given Rust's own calls, composed as the program `contours` composes
//! ours, for `oracle/bench` to time. Nothing is judged: what is read is taken to be good.

use cli::program;
use i_triangle::advanced::convex::ConvexSplitStrategy::{Centroid, EarClipping, Fan};
use i_triangle::int::expose::{self, Bounds, Contour, Operation, Point, Record};
use std::fmt::Write;
use std::process::ExitCode;

const HELP: &str = "\
usage: composed <INPUT      one u32, 0 sum or 1 difference, and two mesh files
Writes the contours of all pairs of the two meshes' split parts, as the program contours
does, by the given Rust's calls alone. What is refused there ends here in any way.
";

/// A mesh's split parts, and its bounds.
type Side = (Vec<Contour>, Bounds);

fn main() -> ExitCode {
    program::run(HELP, |_| {
        let bytes = program::read_bytes()?;
        let words: Vec<u32> = bytes
            .chunks_exact(4)
            .map(|w| u32::from_le_bytes([w[0], w[1], w[2], w[3]]))
            .collect();
        let (left, right) = words[1..].split_at(words[1] as usize / 4);
        let operation = match words[0] {
            0 => Operation::Sum,
            _ => Operation::Difference,
        };
        Ok(text(operation, &side(left), &side(right)).into_bytes())
    })
}

fn side(file: &[u32]) -> Side {
    let strategy = match file[4] {
        0 => EarClipping,
        1 => Fan,
        _ => Centroid,
    };
    let mesh: Vec<Record> = file[5..].chunks_exact(9).map(record).collect();
    let parts = expose::split_parts(&mesh, file[3] as usize, strategy);
    (parts, bounds(&mesh))
}

fn record(words: &[u32]) -> Record {
    let point = |i: usize| -> Point { (words[2 * i] as i32, words[2 * i + 1] as i32) };
    let points = [point(0), point(1), point(2)];
    (points, [words[6], words[7], words[8]])
}

fn bounds(mesh: &[Record]) -> Bounds {
    let [mut least_x, mut greatest_x] = [mesh[0].0[0].0; 2];
    let [mut least_y, mut greatest_y] = [mesh[0].0[0].1; 2];
    for &(x, y) in mesh.iter().flat_map(|(points, _)| points) {
        (least_x, greatest_x) = (least_x.min(x), greatest_x.max(x));
        (least_y, greatest_y) = (least_y.min(y), greatest_y.max(y));
    }
    [least_x, greatest_x, least_y, greatest_y]
}

fn text(operation: Operation, left: &Side, right: &Side) -> String {
    let contours = expose::pairs(operation, &left.0, left.1, &right.0, right.1);
    let contours = contours.expect("an accepted pair");
    let corners: usize = contours.iter().map(Vec::len).sum();
    let ([a, b, c, d], [e, f, g, h]) = (left.1, right.1);
    let [a, b, c, d] = match operation {
        Operation::Sum => [a + e, b + f, c + g, d + h],
        Operation::Difference => [a - f, b - e, c - h, d - g],
    };
    let count = contours.len();
    let mut out = String::new();
    let written = "a string takes what is written";
    writeln!(
        out,
        "contours {count} corners {corners} bounds {a} {b} {c} {d}"
    )
    .expect(written);
    for (k, contour) in contours.iter().enumerate() {
        let (i, j) = (k / right.0.len(), k % right.0.len());
        write!(out, "{i} {j} {}", contour.len()).expect(written);
        for (x, y) in contour {
            write!(out, " ({x},{y})").expect(written);
        }
        out.push('\n');
    }
    out
}
