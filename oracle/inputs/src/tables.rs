//! Part tables: small ones exhaustively, each rule broken alone and every two
//! together, each count about its limit, and random ones of every fate.

use crate::coordinates;
use crate::operands;
use crate::rng::Rng;
use judge::limits::{CONTOUR, CORNERS, PARTS};
use judge::table::{breaks_rules, Table};

/// A way to break a rule. Where two are broken they are taken in this order: a
/// table past a limit replaces what was there, and without starts there is no
/// more to break.
#[derive(Debug, Clone, Copy, PartialEq, Eq, PartialOrd, Ord)]
pub enum Rule {
    /// More parts, corners, or corners of a contour than may be.
    Limit,
    FirstStart,
    LastStart,
    Falls,
    FallsFar,
    CornerMore,
    OddNumber,
    /// Fault 2 in place of 7.
    OffRange,
    NoStarts,
}

/// The rules of fault 7.
pub const RULES: [Rule; 8] = [
    Rule::NoStarts,
    Rule::FirstStart,
    Rule::LastStart,
    Rule::OddNumber,
    Rule::Falls,
    Rule::Limit,
    Rule::FallsFar,
    Rule::CornerMore,
];

/// Breaks one rule of a table that keeps them all.
pub fn break_rule(rng: &mut Rng, table: &mut Table, rule: Rule) {
    let last = table.starts.len() - 1;
    let count = table.corner_count() as u32;
    match rule {
        Rule::NoStarts => table.starts.clear(),
        Rule::FirstStart => table.starts[0] = 1 + rng.below(3) as u32,
        Rule::LastStart => table.starts[last] += 1 + rng.below(2) as u32,
        Rule::OddNumber => table.corners.push(0),
        Rule::Falls => table.starts.extend([count + 1, count]),
        Rule::Limit => *table = Table::of(&operands::at_limit(rng, 1)),
        Rule::FallsFar => table.starts.extend([u32::MAX, 0]),
        Rule::CornerMore => table.corners.extend([0, 0]),
        Rule::OffRange => {
            let at = rng.below(table.corners.len());
            table.corners[at] = coordinates::beyond(rng);
        }
    }
}

/// A table that keeps the rules, of few parts, with at least one corner.
pub fn good(rng: &mut Rng) -> Table {
    loop {
        let reach = coordinates::reach(rng);
        let table = Table::of(&operands::parts(rng, 5, 6, reach));
        if !table.corners.is_empty() {
            return table;
        }
    }
}

/// A table with these rules broken; again where one break mends the other, as a
/// corner more does a last start that is too great.
pub fn broken(rng: &mut Rng, rules: &[Rule]) -> Table {
    let mut rules = rules.to_vec();
    rules.sort();
    rules.dedup();
    let by_rules = rules.iter().any(|&rule| rule != Rule::OffRange);
    loop {
        let mut table = good(rng);
        for &rule in &rules {
            break_rule(rng, &mut table, rule);
        }
        if breaks_rules(&table) == by_rules {
            return table;
        }
    }
}

/// Good ones, and ones with a rule or two broken.
pub fn any(rng: &mut Rng) -> Table {
    let mut rules = Vec::new();
    for _ in 0..2 {
        match rng.below(12) {
            0 | 1 => rules.push(rng.pick(&RULES)),
            2 => rules.push(Rule::OffRange),
            _ => {}
        }
    }
    broken(rng, &rules)
}

/// Every list of up to `starts` starts below `values` with every count of
/// corners' numbers up to `numbers`; each number tells its place.
pub fn small(starts: usize, values: u32, numbers: usize) -> impl Iterator<Item = Table> {
    (0..=starts).flat_map(move |n| {
        (0..values.pow(n as u32)).flat_map(move |code| {
            (0..=numbers).map(move |m| Table {
                starts: (0..n as u32)
                    .map(|i| code / values.pow(i) % values)
                    .collect(),
                corners: (1..=m as i32).map(|i| i - 3).collect(),
            })
        })
    })
}

/// As many parts, corners, or corners of a contour as may be, one fewer, and one
/// more.
pub fn limits() -> Vec<Table> {
    let mut out = Vec::new();
    for past in [0, 1, 2] {
        let at = |limit: usize| limit + past - 1;
        out.push(Table::of(&vec![vec![(0, 0)]; at(PARTS)]));
        let mut parts = vec![vec![(1, 1); 1_000]; CORNERS / 1_000];
        parts.push(vec![(1, 1); at(CORNERS) - 1_000 * parts.len()]);
        out.push(Table::of(&parts));
        out.push(Table::of(&[
            vec![],
            vec![(2, 2); at(CONTOUR)],
            vec![(3, 3)],
        ]));
    }
    out
}

#[cfg(test)]
mod tests {
    use super::*;
    use judge::table::{fault, leaves_range};

    #[test]
    fn each_rule_alone_and_every_two_together_are_broken() {
        let mut rng = Rng::new(71);
        let all: Vec<Rule> = RULES.into_iter().chain([Rule::OffRange]).collect();
        for &a in &all {
            for &b in &all {
                for _ in 0..20 {
                    let table = broken(&mut rng, &[a, b]);
                    let ranged = [a, b].contains(&Rule::OffRange);
                    assert_eq!(leaves_range(&table), ranged, "{a:?} {b:?}");
                    let expected = if [a, b] == [Rule::OffRange; 2] { 2 } else { 7 };
                    assert_eq!(fault(&table), expected, "{a:?} {b:?}: {table:?}");
                }
            }
            assert_eq!(fault(&broken(&mut rng, &[])), 0);
        }
    }

    #[test]
    fn small_tables_are_all_different_and_some_are_good() {
        let all: Vec<Table> = small(3, 3, 4).collect();
        assert_eq!(all.len(), (1 + 3 + 9 + 27) * 5);
        for (i, a) in all.iter().enumerate() {
            assert!(!all[..i].contains(a));
        }
        assert_eq!(all.iter().filter(|t| fault(t) == 0).count(), 10);
    }

    #[test]
    fn only_one_more_than_a_limit_is_refused() {
        let faults: Vec<u32> = limits().iter().map(fault).collect();
        assert_eq!(faults, [0, 0, 0, 0, 0, 0, 7, 7, 7]);
    }
}
