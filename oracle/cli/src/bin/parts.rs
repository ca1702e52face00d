//! `parts`: a mesh file, a limit and a split to parts.

use cli::answers::Cut;
use cli::{answers, program, text};
use judge::file;
use std::process::ExitCode;

const HELP: &str = "\
usage: parts LIMIT ear|fan|centroid <MESHFILE
       parts none <MESHFILE
Reads document 01's mesh file and prints a line for each part: its corners as
(x,y), a space between. With LIMIT and a split the parts are those of the given
Rust's to_convex_polygons_with_max_vertices (a limit below 3 is raised to 3);
with `none` those of to_convex_polygons. The limit and split in the file are read
past. A refusal is printed as `refused N`.
";

fn main() -> ExitCode {
    program::run(HELP, |words| {
        let cut = match words {
            ["none"] => Cut::None,
            [limit, split] => {
                let limit = limit
                    .parse()
                    .map_err(|_| format!("`{limit}` is no limit"))?;
                Cut::Past(limit, text::split(split)?)
            }
            _ => return Err("a limit and a split, or none".into()),
        };
        let answer =
            file::decode(&program::read_bytes()?).and_then(|f| answers::parts(&f.mesh, cut));
        Ok(program::contour_lines(answer).into_bytes())
    })
}
