//! `pairfile sum|difference`: two operands as text to a pair job.

use cli::{program, text};
use judge::job::{self, Job};
use judge::pairs::Operation;
use std::process::ExitCode;

const HELP: &str = "\
usage: pairfile sum|difference <OPERANDS >JOB
Reads two operands as text, as `pairs --help` shows them, and writes the job that
the Rattle program `pairs` reads. It judges nothing.
";

fn main() -> ExitCode {
    program::run(HELP, |words| {
        let operation = match words {
            ["sum"] => Operation::Sum,
            ["difference"] => Operation::Difference,
            _ => return Err("sum or difference".into()),
        };
        let (left, right) = text::operands(&program::read_text()?)?;
        Ok(job::encode(&Job {
            operation,
            left,
            right,
        }))
    })
}
