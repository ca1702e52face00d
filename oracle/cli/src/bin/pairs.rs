//! `pairs sum|difference`: two operands to their pair contours.

use cli::{answers, program, text};
use judge::pairs::Operation;
use std::process::ExitCode;

const HELP: &str = "\
usage: pairs sum|difference <OPERANDS
Reads two operands as text, for example the triangle K and a point:

    left 0 2 0 2              # least x, greatest x, least y, greatest y
    part (0,0) (2,0) (0,2)    # a line for each part; `part` alone: no corners
    right                     # no bounds given: those of the parts
    part (5,5)

and prints a line for each left part and, within it, each right part: the corners
of the pair's contour as (x,y), an empty line where the pair emits nothing. The
contours are those of the given Rust's sum_parts or difference_parts. A refusal
is printed as `refused N`. `#` starts a comment.
";

fn main() -> ExitCode {
    program::run(HELP, |words| {
        let operation = match words {
            ["sum"] => Operation::Sum,
            ["difference"] => Operation::Difference,
            _ => return Err("sum or difference".into()),
        };
        let (left, right) = text::operands(&program::read_text()?)?;
        let answer = answers::pair_contours(operation, &left, &right);
        Ok(program::contour_lines(answer).into_bytes())
    })
}
