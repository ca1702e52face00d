//! `programs FOLDER SEED COUNT [NAME..]`: runs the programs of that folder, or those that
//! are named, beside the judge and the Rust, COUNT random inputs each after the listed
//! ones. Prints a line for each and last `N compared, M differ`; exit 1 where a run fails.

use driver::entry;
use driver::programs::{child, Beside, Program, PROGRAMS};
use std::env;
use std::path::Path;
use std::process::ExitCode;

fn main() -> ExitCode {
    let words: Vec<String> = env::args().skip(1).collect();
    let numbers: Vec<Option<u64>> = words
        .iter()
        .skip(1)
        .take(2)
        .map(|w| w.parse().ok())
        .collect();
    let [Some(seed), Some(count)] = numbers[..] else {
        eprintln!("usage: programs FOLDER SEED COUNT [NAME..]");
        return ExitCode::from(2);
    };
    let (folder, named) = (Path::new(&words[0]), &words[3..]);
    match asked_for(folder, named) {
        Ok(programs) => compared(folder, seed, count, &programs),
        Err(message) => {
            eprintln!("programs: {message}");
            ExitCode::from(2)
        }
    }
}

/// The programs that are named, or all; each has to be there.
fn asked_for(folder: &Path, named: &[String]) -> Result<Vec<&'static Program>, String> {
    let known = |name: &String| PROGRAMS.iter().any(|program| program.name == name);
    if let Some(name) = named.iter().find(|name| !known(name)) {
        return Err(format!("there is no program {name:?}"));
    }
    let asked = |name: &str| named.is_empty() || named.iter().any(|asked| asked == name);
    let programs: Vec<&Program> = PROGRAMS.iter().filter(|p| asked(p.name)).collect();
    match programs.iter().find(|p| !folder.join(p.name).is_file()) {
        Some(absent) => Err(format!("{} is not in {}", absent.name, folder.display())),
        None => Ok(programs),
    }
}

fn compared(folder: &Path, seed: u64, count: u64, programs: &[&Program]) -> ExitCode {
    let mut passed = true;
    let (mut compared, mut differ) = (0, 0);
    for &program in programs {
        let path = folder.join(program.name);
        let run = |bytes: &[u8]| child(&path, bytes);
        let report = entry::run(&Beside { program, run }, seed, count);
        println!("{report}");
        passed &= report.passed();
        compared += report.compared;
        differ += report.differ;
    }
    println!("{compared} compared, {differ} differ");
    ExitCode::from(u8::from(!passed))
}
