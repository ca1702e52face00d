//! The oracle's answers: the judge's refusal, or else what the given Rust says.
//!
//! - `answers`: parts, split parts and pair contours of accepted inputs
//! - `text`: the text forms that the programs read
//! - `programs`: what the Rattle programs parts, contours, placed and pairshard write
//! - `program`: reading words and standard input, printing, exit codes

pub mod answers;
pub mod program;
pub mod programs;
pub mod text;
