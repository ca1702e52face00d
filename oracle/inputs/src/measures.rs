//! What is asked of the calls that measure: a table and a part of it. Small tables
//! exhaustively, each rule broken, areas at the limits of 64 bits, and random ones.

use crate::contours;
use crate::coordinates::EDGE;
use crate::placements;
use crate::rng::Rng;
use crate::table_calls::Inputs;
use crate::tables::{self, Rule, RULES};
use judge::table::Table;
use judge::Contour;

/// A table, and the part that is asked for.
#[derive(Debug, Clone, PartialEq, Eq)]
pub struct Measured {
    pub table: Table,
    pub part: u32,
}

/// Small ones, ones at the limits and damaged ones, then so many random ones.
pub fn asked(rng: &mut Rng, count: u64) -> Inputs<'_, Measured> {
    let tables = small().chain(tables::small(4, 4, 6)).chain(large());
    let fixed = tables.flat_map(by_part);
    let damaged = damaged(rng);
    let random = (0..count).map(move |_| any(rng));
    Box::new(fixed.chain(damaged).chain(random))
}

/// Some parts of a table: the first three, the last, the ones just past it, and the
/// greatest number.
fn by_part(table: Table) -> impl Iterator<Item = Measured> {
    let count = table.starts.len() as u32;
    let last = count.saturating_sub(2);
    let mut parts = vec![0, 1, 2, last, last + 1, last + 2, u32::MAX];
    parts.sort_unstable();
    parts.dedup();
    parts.into_iter().map(move |part| Measured {
        table: table.clone(),
        part,
    })
}

/// Every contour of up to four corners on a 2 by 2 grid, alone and among others; the
/// listed ones.
fn small() -> impl Iterator<Item = Table> {
    let listed = contours::LISTED.iter().map(|(_, contour)| contour.to_vec());
    contours::small(2, 4).chain(listed).flat_map(|contour| {
        let among = [
            vec![],
            contour.clone(),
            vec![(7, 5)],
            vec![(0, 0), (2, 1), (1, 2)],
        ];
        [Table::of(&[contour]), Table::of(&among)]
    })
}

/// As large as coordinates allow, more than once round, and past the limits of part tables.
fn large() -> impl Iterator<Item = Table> {
    let clockwise = |contour: &Contour| contour.iter().rev().copied().collect::<Contour>();
    let wide: Vec<Contour> = (1..=6).map(|times| contours::rounds(EDGE, times)).collect();
    let turned: Vec<Contour> = wide.iter().map(clockwise).collect();
    let alone = wide.iter().chain(&turned).map(|c| vec![c.clone()]);
    let twos = wide
        .iter()
        .flat_map(|a| turned.iter().map(|b| vec![a.clone(), b.clone()]));
    let half = contours::rounds(1 << 29, 1);
    let many = [half.clone(), clockwise(&half)].map(|square| vec![square; 5]);
    let triangle = vec![(0, 0), (1, 0), (0, 1)];
    let contours = alone.chain(twos).chain(many).chain([vec![triangle; 2_100]]);
    let contours: Vec<Vec<Contour>> = contours.collect();
    let tables = contours.into_iter().map(|contours| Table::of(&contours));
    tables.chain(tables::limits())
}

/// How often each two damages are put together.
const TIMES: usize = 20;

/// Each rule broken alone and with every other, by a part that is there or is not.
fn damaged(rng: &mut Rng) -> Vec<Measured> {
    let rules: Vec<Rule> = RULES.into_iter().chain([Rule::OffRange]).collect();
    let mut out = Vec::new();
    for (i, &a) in rules.iter().enumerate() {
        for &b in &rules[i..] {
            for _ in 0..TIMES {
                let table = tables::broken(rng, &[a, b]);
                let part = part(rng, &table);
                out.push(Measured { table, part });
            }
        }
    }
    out
}

/// A random one: contours of every kind and of areas about the limits, few or many, or a
/// table with a rule or two broken.
pub fn any(rng: &mut Rng) -> Measured {
    let table = match rng.below(4) {
        0 => {
            let count = 1 + rng.below(3);
            let contours: Vec<Contour> = (0..count).map(|_| contours::at_64_bits(rng)).collect();
            Table::of(&contours)
        }
        _ => placements::any(rng).table,
    };
    let part = part(rng, &table);
    Measured { table, part }
}

/// A part of the table; seldom past it.
fn part(rng: &mut Rng, table: &Table) -> u32 {
    let count = table.starts.len().saturating_sub(1);
    match rng.below(10) {
        0 => count as u32,
        1 => rng.word() as u32,
        _ => rng.below(count.max(1)) as u32,
    }
}

#[cfg(test)]
mod tests {
    use super::*;
    use judge::measure::{part_area_two, table_area_two};
    use std::collections::BTreeMap;

    /// How often each fault, or none, occurs.
    fn tally(all: impl Iterator<Item = Measured>) -> [BTreeMap<u32, usize>; 2] {
        let mut out = [BTreeMap::new(), BTreeMap::new()];
        for Measured { table, part } in all {
            let told = [part_area_two(&table, part), table_area_two(&table)];
            for (tally, told) in out.iter_mut().zip(told) {
                *tally.entry(told.err().unwrap_or(0)).or_default() += 1;
            }
        }
        out
    }

    #[test]
    fn every_fault_occurs_often_before_the_random_ones_and_in_them() {
        let mut rng = Rng::new(141);
        let before = tally(asked(&mut rng, 0));
        let after = tally((0..3_000).map(|_| any(&mut rng)));
        for [part, table] in [before, after] {
            for fault in [0, 2, 7, 11, 12] {
                assert!(part[&fault] >= 40, "{fault}: {part:?}");
            }
            for fault in [0, 2, 7, 11] {
                assert!(table[&fault] >= 40, "{fault}: {table:?}");
            }
        }
    }
}
