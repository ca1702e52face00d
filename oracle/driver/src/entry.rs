//! What an entry point is, and how one is run.

use inputs::rng::Rng;
use std::collections::BTreeMap;
use std::fmt::{self, Debug, Display};
use std::panic::{catch_unwind, AssertUnwindSafe};

/// One function of the Rattle boundary, beside the Rust and the judge.
pub trait EntryPoint {
    type Input: Clone;
    /// All that the function gives back: values, counts, the fault, and the lent
    /// memory after it, both what was written and what was not.
    type Answer: PartialEq + Debug;

    fn name(&self) -> &'static str;

    /// The fault numbers that it can give. Each must occur in a run, and so must
    /// an accepted input.
    fn faults(&self) -> &'static [u32];

    /// The inputs of a run: small ones exhaustively, then `count` random ones, or
    /// a fixed share of `count` where one input costs much more than a few
    /// numbers do.
    fn inputs<'a>(
        &self,
        rng: &'a mut Rng,
        count: u64,
    ) -> Box<dyn Iterator<Item = Self::Input> + 'a>;

    fn rattle(&self, input: &Self::Input) -> Self::Answer;

    /// The judge's refusal, or else the Rust's answer.
    fn rust(&self, input: &Self::Input) -> Self::Answer;

    fn fault(&self, answer: &Self::Answer) -> u32;

    /// Simpler inputs to try in place of one that differs, simplest first. Each
    /// must be nearer to an end, so that shrinking stops.
    fn simpler(&self, input: &Self::Input) -> Vec<Self::Input>;

    fn show(&self, input: &Self::Input) -> String;
}

/// What a run of one entry point found.
#[derive(Debug)]
pub struct Report {
    pub name: &'static str,
    pub compared: u64,
    pub differ: u64,
    /// How often each fault was expected; 0 is accepted.
    pub faults: BTreeMap<u32, u64>,
    /// The fault numbers that never occurred, 0 among them.
    pub missing: Vec<u32>,
    /// The smallest input found that differs, with both answers.
    pub smallest: Option<String>,
}

impl Report {
    pub fn passed(&self) -> bool {
        self.compared > 0 && self.differ == 0 && self.missing.is_empty()
    }
}

impl Display for Report {
    fn fmt(&self, f: &mut fmt::Formatter<'_>) -> fmt::Result {
        write!(f, "{}: {} compared", self.name, self.compared)?;
        for (fault, times) in &self.faults {
            match fault {
                0 => write!(f, ", accepted {times}")?,
                _ => write!(f, ", fault {fault} {times}")?,
            }
        }
        if self.compared == 0 {
            write!(f, "\n  FAILS: no input was compared")?;
        }
        for fault in &self.missing {
            match fault {
                0 => write!(f, "\n  FAILS: no input was accepted")?,
                _ => write!(f, "\n  FAILS: fault {fault} never occurred")?,
            }
        }
        if let Some(smallest) = &self.smallest {
            write!(
                f,
                "\n  FAILS: {} differ; the smallest found: {smallest}",
                self.differ
            )?;
        }
        Ok(())
    }
}

/// How many inputs that differ are made small, and by how many steps each.
const SHRUNK: u64 = 20;
const STEPS: usize = 10_000;

/// Asks every input of both sides.
pub fn run<E: EntryPoint>(entry: &E, seed: u64, count: u64) -> Report {
    let mut rng = Rng::new(seed);
    let mut report = Report {
        name: entry.name(),
        compared: 0,
        differ: 0,
        faults: BTreeMap::new(),
        missing: Vec::new(),
        smallest: None,
    };
    for input in entry.inputs(&mut rng, count) {
        report.compared += 1;
        let (rust, rattle) = both(entry, &input);
        if let Ok(answer) = &rust {
            *report.faults.entry(entry.fault(answer)).or_default() += 1;
        }
        if rust != rattle {
            report.differ += 1;
            if report.differ <= SHRUNK {
                let small = told(entry, &shrunk(entry, input));
                let shorter = |old: &String| small.len() < old.len();
                if report.smallest.as_ref().is_none_or(shorter) {
                    report.smallest = Some(small);
                }
            }
        }
    }
    let can_give = [0].iter().chain(entry.faults());
    report.missing = can_give
        .filter(|fault| !report.faults.contains_key(fault))
        .copied()
        .collect();
    report
}

/// Both answers; a panic of the Rust (an overflow, say) stands for its answer and
/// is a difference.
fn both<E: EntryPoint>(
    entry: &E,
    input: &E::Input,
) -> (Result<E::Answer, Panicked>, Result<E::Answer, Panicked>) {
    let rust = catch_unwind(AssertUnwindSafe(|| entry.rust(input))).map_err(|_| Panicked);
    (rust, Ok(entry.rattle(input)))
}

/// The Rust panicked; its message went to standard error.
#[derive(Debug, PartialEq)]
struct Panicked;

/// The input made as small as it still differs.
fn shrunk<E: EntryPoint>(entry: &E, input: E::Input) -> E::Input {
    let differs = |input: &E::Input| {
        let (rust, rattle) = both(entry, input);
        rust != rattle
    };
    let mut small = input;
    for _ in 0..STEPS {
        match entry.simpler(&small).into_iter().find(|s| differs(s)) {
            Some(simpler) => small = simpler,
            None => break,
        }
    }
    small
}

fn told<E: EntryPoint>(entry: &E, input: &E::Input) -> String {
    let (rust, rattle) = both(entry, input);
    let text = |side: Result<E::Answer, Panicked>| match side {
        Ok(answer) => format!("{answer:?}"),
        Err(Panicked) => "panicked".into(),
    };
    format!(
        "{}: Rust {}, Rattle {}",
        entry.show(input),
        text(rust),
        text(rattle)
    )
}

/// Numbers nearer to 0, nearest first: 0, then less by falling powers of two.
pub fn simpler_numbers(value: i32) -> Vec<i32> {
    let mut out = Vec::new();
    if value != 0 {
        out.push(0);
    }
    for bit in (0..31).rev() {
        let step = 1i64 << bit;
        let wide = i64::from(value);
        if step < wide.abs() {
            out.push((wide - wide.signum() * step) as i32);
        }
    }
    out
}

#[cfg(test)]
mod tests {
    use super::*;

    #[test]
    fn simpler_numbers_come_nearer_to_zero() {
        for value in [0, 1, -1, 7, -100, 1 << 30, i32::MAX, i32::MIN] {
            for simpler in simpler_numbers(value) {
                assert!(i64::from(simpler).abs() < i64::from(value).abs());
            }
        }
        assert!(simpler_numbers(0).is_empty());
        assert_eq!(simpler_numbers(-6), [0, -2, -4, -5]);
    }
}
