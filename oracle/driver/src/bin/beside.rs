//! `beside SEED COUNT [NAME..]`: runs every entry point of the Rattle archive, or
//! those that are named, beside the Rust, COUNT random inputs each after the
//! exhaustive ones, or that entry point's share of COUNT. Prints a line for each and
//! last `N compared, M differ`; exit 1 where a run fails.

use driver::boundary::ENTRY_POINTS;
use std::env;
use std::process::ExitCode;

fn main() -> ExitCode {
    let words: Vec<String> = env::args().skip(1).collect();
    let numbers: Vec<Option<u64>> = words.iter().take(2).map(|w| w.parse().ok()).collect();
    let [Some(seed), Some(count)] = numbers[..] else {
        eprintln!("usage: beside SEED COUNT [NAME..]");
        return ExitCode::from(2);
    };
    let named = &words[2..];
    let known = |name: &String| ENTRY_POINTS.iter().any(|(known, _)| known == name);
    if let Some(name) = named.iter().find(|name| !known(name)) {
        eprintln!("beside: there is no entry point {name:?}");
        return ExitCode::from(2);
    }
    let mut passed = true;
    let (mut compared, mut differ) = (0, 0);
    for (name, run) in ENTRY_POINTS {
        if !named.is_empty() && !named.iter().any(|asked| asked == name) {
            continue;
        }
        let report = run(seed, count);
        assert_eq!(report.name, *name);
        println!("{report}");
        passed &= report.passed();
        compared += report.compared;
        differ += report.differ;
    }
    println!("{compared} compared, {differ} differ");
    ExitCode::from(u8::from(!passed))
}
