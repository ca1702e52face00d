//! `judged NAME`: what a Rattle program has to write for standard input.

use cli::program;
use cli::programs::PROGRAMS;
use std::process::ExitCode;

const HELP: &str = "\
usage: judged parts <MESHFILE
       judged contours <INPUT      one u32, 0 sum or 1 difference, and two mesh files
       judged placed <INPUT        two i32, x and y, and two mesh files
       judged pairshard <INPUT     two u32, from and to, and a pair job
Writes what the Rattle program of that name has to write: the stored table, the text of
all pairs, one word, or the job; or `refused N`. Parts and contours are the given
Rust's, all else is the judge's.
";

fn main() -> ExitCode {
    program::run(HELP, |words| {
        let named = |name: &str| PROGRAMS.iter().find(|(known, _)| *known == name);
        let [name] = words else {
            return Err("one program's name".into());
        };
        let (_, writes) = named(name).ok_or_else(|| format!("there is no program `{name}`"))?;
        Ok(writes(&program::read_bytes()?))
    })
}
