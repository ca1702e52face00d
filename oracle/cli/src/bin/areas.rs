//! `areas`: document 01's mesh file on standard input to its listing.

use cli::{answers, program};
use judge::{file, listing};
use std::process::ExitCode;

const HELP: &str = "\
usage: areas <MESHFILE
Reads document 01's mesh file (five little-endian u32: total bytes, triangle
count, offset of records, corner limit, split; then records of six i32 and three
u32) and prints its listing: a line of counts and total doubled area, then a line
a part: number, corners, doubled area, share in ten-thousandths, the corners.
A refusal is printed as `refused N`. The parts are the given Rust's. See also
`meshfile`, which makes such a file from text.
";

fn main() -> ExitCode {
    program::run(HELP, |words| {
        if !words.is_empty() {
            return Err("areas takes no words".into());
        }
        let answer = file::decode(&program::read_bytes()?).and_then(|f| answers::parts_of_file(&f));
        let text = match answer {
            Ok(parts) => listing::listing(&parts),
            Err(fault) => listing::refusal(fault),
        };
        Ok(text.into_bytes())
    })
}
