//! `meshfile`: a mesh as text to document 01's mesh file.

use cli::{program, text};
use judge::file::{self, MeshFile};
use std::process::ExitCode;

const HELP: &str = "\
usage: meshfile LIMIT ear|fan|centroid <TEXT >MESHFILE
Reads a mesh as text, a line for each triangle: three points and the three
neighbours across from them, each a number or `none`. Document 01's dart:

    (0,0) (4,0)   (0,4)  1    none none
    (4,0) (10,-2) (0,4)  none 0    none

and writes document 01's mesh file, for `areas` and `parts`. It judges nothing.
";

fn main() -> ExitCode {
    program::run(HELP, |words| {
        let [limit, split] = words else {
            return Err("a limit and a split".into());
        };
        let limit = limit
            .parse()
            .map_err(|_| format!("`{limit}` is no limit"))?;
        let split = text::split(split)?;
        let mesh = text::mesh(&program::read_text()?)?;
        Ok(file::encode(&MeshFile { limit, split, mesh }))
    })
}
