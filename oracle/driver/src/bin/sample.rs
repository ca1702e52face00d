//! `sample FOLDER`: writes the stored samples there, of each its cases (NAME.bin) and
//! the lines that say what the Rust and the judge answer (NAME.txt); vectors/README.md
//! has the layouts. The same bytes every time.

use driver::sample::SAMPLES;
use std::env;
use std::fs;
use std::io;
use std::path::Path;
use std::process::ExitCode;

fn main() -> ExitCode {
    let words: Vec<String> = env::args().skip(1).collect();
    let [folder] = &words[..] else {
        eprintln!("usage: sample FOLDER");
        return ExitCode::from(2);
    };
    match write(Path::new(folder)) {
        Ok(()) => ExitCode::SUCCESS,
        Err(error) => {
            eprintln!("sample: {folder}: {error}");
            ExitCode::FAILURE
        }
    }
}

fn write(folder: &Path) -> io::Result<()> {
    for (name, sample) in SAMPLES {
        let sample = sample();
        fs::write(folder.join(name).with_extension("bin"), &sample.cases)?;
        fs::write(folder.join(name).with_extension("txt"), &sample.lines)?;
        println!("{name}: {} cases", sample.count);
    }
    Ok(())
}
