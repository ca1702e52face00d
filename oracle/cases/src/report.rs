//! The checker's log, read for the cases that differ. Where a chunk of cases fails,
//! the checker tells which chunk (`all_120`), and not which case; so
//! the first chunks that fail are checked again, each case by itself.

use crate::antt::{Chunk, CASE_NAME, CHUNK_NAME};
use std::collections::BTreeMap;

/// How many lines of a log that means something else are shown.
const SHOWN: usize = 12;

/// How many chunks that fail are checked again case by case.
const NARROWED: usize = 5;

pub struct Report {
    pub text: String,
    pub passed: bool,
}

/// The first chunks that the log says are wrong.
pub fn failed_chunks(log: &str) -> Vec<Chunk> {
    let mut all = declarations(log, CHUNK_NAME);
    all.truncate(NARROWED);
    all
}

/// `list` has a line for each case: its topic, its definition, then what it says.
/// `narrowed` is the log of the chunks that failed, checked again.
pub fn read(log: &str, narrowed: &str, list: &str) -> Report {
    let cases: Vec<&str> = list.lines().collect();
    let mut text = numbers(&cases);
    let total = cases.len();
    if is_proved(log) {
        text += &format!("{total} compared, 0 differ\n");
        return Report {
            text,
            passed: total > 0,
        };
    }
    let wrong = declarations(narrowed, CASE_NAME);
    for &number in &wrong {
        let case = cases.get(number).copied().unwrap_or("no such case");
        text += &format!("  differs: case {number}; the oracle says: {case}\n");
    }
    for log in [log, narrowed] {
        let (wrong, other): (Vec<String>, Vec<String>) =
            messages(log).into_iter().partition(|m| is_wrong(m));
        if wrong.is_empty() || !other.is_empty() {
            text += "the checker did not compute every case; its log says:\n";
            text += &telling(log, &other);
            return Report {
                text,
                passed: false,
            };
        }
    }
    let chunks = declarations(log, CHUNK_NAME).len();
    let least = if chunks > NARROWED { "at least " } else { "" };
    text += &format!("{total} compared, {least}{} differ\n", wrong.len());
    Report {
        text,
        passed: false,
    }
}

/// How many cases of each topic there are, and of each definition of it.
fn numbers(cases: &[&str]) -> String {
    let mut topics: BTreeMap<&str, BTreeMap<&str, usize>> = BTreeMap::new();
    for case in cases {
        let mut words = case.split(' ');
        let mut word = || words.next().unwrap_or("");
        let (topic, definition) = (word(), word());
        *topics
            .entry(topic)
            .or_default()
            .entry(definition)
            .or_default() += 1;
    }
    let mut text = String::new();
    for (topic, definitions) in topics {
        let total: usize = definitions.values().sum();
        let each: Vec<String> = definitions
            .iter()
            .map(|(definition, count)| format!("{definition} {count}"))
            .collect();
        text += &format!("{topic}: {total} compared ({})\n", each.join(", "));
    }
    text
}

/// Whether the log says that the scratch crate is proved: it ends with the crate, and
/// what is said of it. The crates below it stand before it, each with the same.
fn is_proved(log: &str) -> bool {
    let mut of_cases = log.lines().skip_while(|l| !l.starts_with("crate cases: "));
    of_cases.any(|l| l.starts_with("logic=proved "))
}

/// The error messages of the log, each on one line. What else the log says of an error,
/// as that another `unfolding` line is refused too, is a message of its own.
fn messages(log: &str) -> Vec<String> {
    let mut out: Vec<String> = Vec::new();
    let mut goes_on = false;
    for line in log.lines() {
        if line.contains(": error:") {
            out.push(line.into());
            goes_on = true;
        } else if !line.starts_with(' ') {
            goes_on = false;
        } else if let Some(last) = out.last_mut().filter(|_| goes_on) {
            last.push(' ');
            last.push_str(line.trim());
        }
    }
    out
}

/// Whether a message says that a test computes to false, and not that something could
/// not be computed.
fn is_wrong(message: &str) -> bool {
    message.contains("the two types are `Path Bool false true` (expected)")
}

/// The numbers of the declarations that are wrong, of those with this name.
fn declarations(log: &str, name: &str) -> Vec<usize> {
    let quoted = format!("error: `{name}");
    messages(log)
        .iter()
        .filter(|m| is_wrong(m))
        .filter_map(|m| {
            let (_, rest) = m.split_once(&quoted)?;
            rest.split('`').next()?.parse().ok()
        })
        .collect()
}

/// The messages that tell what failed, or else the log's last lines.
fn telling(log: &str, errors: &[String]) -> String {
    let lines: Vec<&str> = if errors.is_empty() {
        let all: Vec<&str> = log.lines().collect();
        all[all.len().saturating_sub(SHOWN)..].to_vec()
    } else {
        errors.iter().take(SHOWN).map(String::as_str).collect()
    };
    let cut = |line: &str| line.chars().take(300).collect::<String>();
    lines
        .iter()
        .map(|line| format!("  {}\n", cut(line)))
        .collect()
}

#[cfg(test)]
mod tests {
    use super::*;

    const LIST: &str = "Plane cross one\nPlane area two\nPlane cross three\n";
    const BELOW: &str = "crate plane: modules loaded=1 checked=0\nlogic=proved functions=12\n";
    const ENDS: &str = "crate cases: modules loaded=12 checked=1\nlogic=not-proved\n";

    fn wrong(name: &str) -> String {
        format!(
            "./specs/Mesh.antt:91:9: error: `{name}`: expected type `holds c ≡ true`, but this has type `holds c ≡ holds c`\n  \
             computed as far as they go, the two types are `Path Bool false true` (expected) and `Path Bool\n  false false` (found)\n"
        )
    }

    fn stuck(name: &str) -> String {
        format!(
            "./specs/Mesh.antt:91:9: error: `{name}`: expected type `holds c ≡ true`, but this has type `holds c ≡ holds c`\n  \
             computed as far as they go, the two types differ only where one has `true` (expected) and the other has `flat []`\n  (found)\n\
             ./specs/Mesh.antt:89:1: note: the last of 2 trial runs of this declaration was refused too. That run's refusal: \
             computed as far as they go, the two types are `Path Bool false true` (expected) and `Path Bool false false` (found)\n"
        )
    }

    #[test]
    fn a_proved_crate_passes() {
        let report = read(
            &format!("{BELOW}crate cases: modules loaded=0 checked=13\nlogic=proved functions=0\n"),
            "",
            LIST,
        );
        assert!(report.passed);
        assert_eq!(
            report.text,
            "Plane: 3 compared (area 1, cross 2)\n3 compared, 0 differ\n"
        );
    }

    #[test]
    fn wrong_cases_are_named_however_the_message_breaks() {
        let chunk = wrong("all_0") + ENDS;
        assert_eq!(failed_chunks(&chunk), [0]);
        let narrowed =
            wrong("case_1") + &wrong("case_2").replace("(expected) ", "(expected)\n    ") + ENDS;
        let report = read(&chunk, &narrowed, LIST);
        assert!(!report.passed);
        assert!(report
            .text
            .contains("case 1; the oracle says: Plane area two\n"));
        assert!(report
            .text
            .ends_with("Plane cross three\n3 compared, 2 differ\n"));
    }

    #[test]
    fn more_chunks_than_are_narrowed_say_at_least() {
        let log: String = (0..9).map(|i| wrong(&format!("all_{}", 60 * i))).collect();
        assert_eq!(failed_chunks(&log), [0, 60, 120, 180, 240]);
        let report = read(&log, &wrong("case_1"), LIST);
        assert!(report.text.ends_with("3 compared, at least 1 differ\n"));
    }

    #[test]
    fn what_was_not_computed_fails() {
        let chunk = wrong("all_0") + ENDS;
        let unknown = format!("C:1:1: error: no such name\n{ENDS}");
        let both = wrong("all_0") + &stuck("all_60") + ENDS;
        let alone = stuck("all_0") + ENDS;
        assert!(failed_chunks(&alone).is_empty());
        for log in [
            &unknown,
            &alone,
            &both,
            &chunk,
            "rt: no such crate\n",
            BELOW,
        ] {
            let report = read(log, "", LIST);
            assert!(!report.passed);
            assert!(report.text.contains("did not compute every case"));
            assert!(!report.text.contains("differ\n"));
        }
        assert!(!read("", "", "").passed);
        assert!(!read("crate cases: \nlogic=proved ", "", "").passed);
    }
}
