//! What the programs share: words, standard input, output and exit codes. An
//! answer and a refusal both exit 0; 2 is for words or text that mean nothing.

use judge::listing::{corners_text, refusal};
use judge::{Contour, Fault};
use std::io::{self, Read, Write};
use std::process::ExitCode;

/// Runs `answer` on the words; prints `help` where it is asked for or the words
/// mean nothing.
pub fn run(help: &str, answer: impl Fn(&[&str]) -> Result<Vec<u8>, String>) -> ExitCode {
    let words: Vec<String> = std::env::args().skip(1).collect();
    let words: Vec<&str> = words.iter().map(String::as_str).collect();
    if words.iter().any(|w| *w == "--help" || *w == "-h") {
        print!("{help}");
        return ExitCode::SUCCESS;
    }
    let done = answer(&words).and_then(|out| {
        let mut stdout = io::stdout().lock();
        stdout
            .write_all(&out)
            .and_then(|()| stdout.flush())
            .map_err(|e| e.to_string())
    });
    match done {
        Ok(()) => ExitCode::SUCCESS,
        Err(message) => {
            eprintln!("{message}\n\n{help}");
            ExitCode::from(2)
        }
    }
}

pub fn read_bytes() -> Result<Vec<u8>, String> {
    let mut bytes = Vec::new();
    io::stdin()
        .read_to_end(&mut bytes)
        .map_err(|e| e.to_string())?;
    Ok(bytes)
}

pub fn read_text() -> Result<String, String> {
    String::from_utf8(read_bytes()?).map_err(|_| "standard input is no UTF-8 text".into())
}

/// A line for each contour, or the refusal.
pub fn contour_lines(answer: Result<Vec<Contour>, Fault>) -> String {
    match answer {
        Ok(contours) => contours.iter().map(|c| corners_text(c) + "\n").collect(),
        Err(fault) => refusal(fault),
    }
}
