//! The definitions of `specs/` beside the Rust, before any code: writes a scratch
//! crate of cases whose expected answers come from the Rust (or the judge), and
//! reads what the checker computed of them. `oracle/definitions` runs it.
//!
//! - `topic`: what a topic is: a few definitions, and cases of them
//! - `plane`, `mesh`, `parts`, `splits`, `pair`, `walk`, `table`, `pairs`,
//!   `listing`, `paths`: the topics
//! - `antt`: terms and files of the prover's language
//! - `report`: the checker's log, read for the cases that differ
//!
//! A topic joins with a module that makes a `Topic` and one line in `TOPICS`.

mod antt;
mod listing;
mod mesh;
mod pair;
mod pairs;
mod parts;
mod paths;
mod plane;
mod report;
mod splits;
mod table;
mod topic;
mod walk;

use antt::Declared;
use inputs::rng::Rng;
use std::collections::HashMap;
use std::env;
use std::fs;
use std::io;
use std::path::Path;
use std::process::ExitCode;
use topic::{Amount, Module, Topic};

/// One maker for each topic: the generator, and how many cases.
const TOPICS: &[fn(&mut Rng, Amount) -> Topic] = &[
    plane::topic,
    mesh::topic,
    parts::topic,
    splits::topic,
    pair::topic,
    walk::topic,
    table::topic,
    pairs::topic,
    listing::topic,
    paths::topic,
];

const USAGE: &str = "\
usage: cases deps [TOPIC..]
       cases write FOLDER LIST SEED COUNT [TOPIC..]
       cases narrow FOLDER LOG SEED COUNT [TOPIC..]
       cases report LOG NARROWED LIST
COUNT: random cases of each kind, after the small ones; or `short`
";

fn main() -> ExitCode {
    let words: Vec<String> = env::args().skip(1).collect();
    let words: Vec<&str> = words.iter().map(String::as_str).collect();
    let done = match words[..] {
        ["deps", ref only @ ..] => deps(only),
        ["write", folder, list, seed, count, ref only @ ..] => {
            match (seed.parse(), amount(count)) {
                (Ok(seed), Some(amount)) => write(folder, list, &topics(seed, amount, only)),
                _ => return usage(),
            }
        }
        ["narrow", folder, log, seed, count, ref only @ ..] => {
            match (seed.parse(), amount(count)) {
                (Ok(seed), Some(amount)) => narrow(folder, log, &topics(seed, amount, only)),
                _ => return usage(),
            }
        }
        ["report", log, narrowed, list] => report(log, narrowed, list),
        _ => return usage(),
    };
    match done {
        Ok(true) => ExitCode::SUCCESS,
        Ok(false) => ExitCode::FAILURE,
        Err(error) => {
            eprintln!("cases: {error}");
            ExitCode::from(2)
        }
    }
}

fn usage() -> ExitCode {
    eprint!("{USAGE}");
    ExitCode::from(2)
}

fn amount(word: &str) -> Option<Amount> {
    match word {
        "short" => Some(Amount::SHORT),
        count => count.parse().ok().map(Amount::whole),
    }
}

/// All topics, or those named.
fn topics(seed: u64, amount: Amount, only: &[&str]) -> Vec<Topic> {
    let mut rng = Rng::new(seed);
    let all = TOPICS.iter().map(|make| make(&mut rng, amount));
    all.filter(|topic| only.is_empty() || only.contains(&topic.name))
        .collect()
}

/// The crates that the scratch crate leans on, for all topics or those named.
fn deps(only: &[&str]) -> io::Result<bool> {
    let mut names: Vec<&str> = topics(0, Amount::SHORT, only)
        .iter()
        .flat_map(|t| t.modules.iter().map(|&(layer, _)| layer))
        .chain(antt::SHARED_DEPS)
        .collect();
    names.sort_unstable();
    names.dedup();
    println!("{}", names.join(" "));
    Ok(true)
}

/// Writes the scratch crate, and a list of its cases for people.
fn write(folder: &str, list: &str, topics: &[Topic]) -> io::Result<bool> {
    scratch(Path::new(folder), topics, &Declared::Chunks)?;
    let mut lines = String::new();
    for topic in topics {
        for case in &topic.cases {
            lines += &format!("{} {}\n", topic.name, case.text);
        }
    }
    fs::write(list, lines)?;
    Ok(true)
}

/// Writes the scratch crate anew with the first chunks that failed, each case by
/// itself; false where none failed.
fn narrow(folder: &str, log: &str, topics: &[Topic]) -> io::Result<bool> {
    let failed = report::failed_chunks(&fs::read_to_string(log)?);
    let folder = Path::new(folder);
    if !failed.is_empty() {
        fs::remove_dir_all(folder)?;
        scratch(folder, topics, &Declared::Cases(&failed))?;
    }
    Ok(!failed.is_empty())
}

/// The scratch crate, beside the crates whose definitions it computes.
fn scratch(folder: &Path, topics: &[Topic], declared: &Declared) -> io::Result<()> {
    let crates = folder.parent().unwrap_or(Path::new("."));
    let specs = folder.join("specs");
    fs::create_dir_all(folder.join("src"))?;
    fs::create_dir_all(&specs)?;
    fs::write(
        folder.join("src/lib.rt"),
        "// Cases of definitions: no code.\n#![tactic(auto)]\n",
    )?;
    let mut root = String::new();
    for (name, text) in antt::SHARED {
        root += &format!("pub mod {name}\n");
        fs::write(specs.join(format!("{name}.antt")), text)?;
    }
    let mut first = 0;
    for topic in topics {
        root += &format!("pub mod {}\n", topic.name);
        let mut definitions = HashMap::new();
        for &module in &topic.modules {
            let (layer, name) = module;
            let file = crates.join(format!("{layer}/specs/{name}.antt"));
            definitions.insert(module, fs::read_to_string(file)?);
        }
        fs::write(
            specs.join(format!("{}.antt", topic.name)),
            antt::file(topic, first, declared, |m: Module| definitions[&m].clone()),
        )?;
        first += topic.cases.len();
    }
    fs::write(specs.join("Lib.antt"), root)
}

/// `narrowed` is the log of the narrowed crate; it need not be there.
fn report(log: &str, narrowed: &str, list: &str) -> io::Result<bool> {
    let narrowed = fs::read_to_string(narrowed).unwrap_or_default();
    let report = report::read(
        &fs::read_to_string(log)?,
        &narrowed,
        &fs::read_to_string(list)?,
    );
    print!("{}", report.text);
    Ok(report.passed)
}
