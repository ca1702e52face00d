//! What is asked of `pairshard`: two part numbers and a pair job, as bytes. Small jobs by
//! every two numbers and at every length, each count and each rule broken on either side,
//! the limits, and random ones.

use crate::operands::{self, Pair};
use crate::pair_damage;
use crate::rng::Rng;
use crate::stored::put;
use crate::tables::{self, Rule, RULES};
use judge::job::{self, Job};
use judge::pairs::{Operand, Operation};
use judge::table::Table;
use judge::Contour;

/// The two numbers and the job's bytes.
pub fn asked(from: u32, to: u32, job: &[u8]) -> Vec<u8> {
    [&from.to_le_bytes(), &to.to_le_bytes(), job].concat()
}

fn job_of(left: Table, right: Table) -> Vec<u8> {
    let operand = |table| Operand {
        table,
        bounds: [-100, 100, i32::MIN, i32::MAX],
    };
    job::encode(&Job {
        operation: Operation::Difference,
        left: operand(left),
        right: operand(right),
    })
}

/// Four left parts, one of them empty, and two right ones.
pub fn small_job() -> Vec<u8> {
    let left: [Contour; 4] = [
        vec![(0, 0), (2, 0), (0, 2)],
        vec![],
        vec![(-1, 7)],
        vec![(1, 1), (3, 1), (3, 3), (1, 3)],
    ];
    let right: [Contour; 2] = [vec![(5, 5), (9, -9)], vec![(0, 0), (1, 0), (0, 1)]];
    job_of(Table::of(&left), Table::of(&right))
}

/// Numbers below and about the part count of four, and at the ends of 32 bits.
const NUMBERS: [u32; 9] = [0, 1, 2, 3, 4, 5, 1 << 30, 1 << 31, u32::MAX];

/// A small job by every two numbers.
pub fn every_two() -> impl Iterator<Item = Vec<u8>> {
    let job = small_job();
    let twos = NUMBERS
        .iter()
        .flat_map(|&from| NUMBERS.map(|to| (from, to)));
    twos.map(move |(from, to)| asked(from, to, &job))
}

/// Every length up to a word longer: a small job as far as it goes, and zeros.
pub fn every_length() -> impl Iterator<Item = Vec<u8>> {
    let whole = asked(1, 3, &small_job());
    (0..=whole.len() + 4).flat_map(move |length| {
        let mut bytes = whole.clone();
        bytes.resize(length, 0);
        [bytes, vec![0; length]]
    })
}

/// The words of the part and corner counts in a small job that is asked for, left and
/// right: two numbers, the operation and four bounds stand before the first.
fn count_words() -> [usize; 4] {
    let left = 2 + 1 + 4;
    let right = left + 2 + 5 + 16 + 4;
    [left, left + 1, right, right + 1]
}

/// Other operations; each count other than it is, with those whose length in 32 bits is
/// the same; and two counts that together keep the length.
pub fn wrong_words() -> Vec<Vec<u8>> {
    let whole = asked(0, 3, &small_job());
    let with = |changes: &[(usize, u32)]| {
        let mut bytes = whole.clone();
        changes
            .iter()
            .for_each(|&(word, value)| put(&mut bytes, word, value));
        bytes
    };
    let at = |word: usize| u32::from_le_bytes(whole[4 * word..4 * word + 4].try_into().unwrap());
    let mut out: Vec<Vec<u8>> = [2, 3, 256, 1 << 24, u32::MAX]
        .iter()
        .map(|&operation| with(&[(2, operation)]))
        .collect();
    let counts = count_words();
    for word in counts {
        let count = at(word);
        let near = [0, count - 1, count + 1, 2_048, 2_049, 8_192, 8_193];
        let far = [29, 30, 31].map(|bits| count + (1 << bits));
        let all = near.into_iter().chain(far).chain([u32::MAX]);
        out.extend(all.map(|value| with(&[(word, value)])));
    }
    for [parts, corners] in [[counts[0], counts[1]], [counts[2], counts[3]]] {
        for fewer in [1, 2] {
            out.push(with(&[
                (parts, at(parts) + 2 * fewer),
                (corners, at(corners) - fewer),
            ]));
        }
        out.push(with(&[(parts, at(parts) - 2), (corners, at(corners) + 1)]));
    }
    // the right's parts taken from the left's corners
    out.push(with(&[
        (counts[1], at(counts[1]) - 1),
        (counts[3], at(counts[3]) + 1),
    ]));
    out
}

/// Tables at each limit, one fewer and one more, on either side.
pub fn limits() -> Vec<Vec<u8>> {
    let one = Table::of(&[vec![(1, 1)]]);
    let numbers = [
        (0, u32::MAX),
        (0, 1),
        (1, 3),
        (2_046, 2_048),
        (2_047, 2_049),
    ];
    let mut out = Vec::new();
    for table in tables::limits() {
        for (from, to) in numbers {
            out.push(asked(from, to, &job_of(table.clone(), one.clone())));
            out.push(asked(from, to, &job_of(one.clone(), table.clone())));
        }
        out.push(asked(0, 9_999, &job_of(table.clone(), table.clone())));
    }
    out
}

/// The rules that bytes can break: a table without starts has no stored form.
fn rules() -> impl Iterator<Item = Rule> + Clone {
    let all = RULES.into_iter().chain([Rule::OffRange]);
    all.filter(|&rule| rule != Rule::NoStarts)
}

/// Each rule broken on the left, or none, with each on the right, or none, so often.
pub fn broken(rng: &mut Rng, times: usize) -> Vec<Vec<u8>> {
    let sides = || [None].into_iter().chain(rules().map(Some));
    let mut out = Vec::new();
    for _ in 0..times {
        for left in sides() {
            for right in sides() {
                let [left, right] = [left, right].map(|rule| {
                    let rules: Vec<Rule> = rule.into_iter().collect();
                    tables::broken(rng, &rules)
                });
                let (from, to) = numbers(rng, left.starts.len());
                out.push(asked(from, to, &job_of(left, right)));
            }
        }
    }
    out
}

/// Two numbers, mostly below and about a count.
fn numbers(rng: &mut Rng, count: usize) -> (u32, u32) {
    let mut number = || match rng.below(12) {
        0 => rng.pick(&[1 << 30, 1 << 31, u32::MAX, u32::MAX - 1]),
        _ => rng.below(count + 2) as u32,
    };
    (number(), number())
}

/// A random one: of an accepted pair, or of one with a fault, or with its bytes damaged.
pub fn any(rng: &mut Rng) -> Vec<u8> {
    let good = operands::good(rng, 8, 8);
    let pair = match rng.below(4) {
        0 => {
            // of these the program refuses 7 alone
            let fault = rng.pick(&[7, 7, 7, 2, 9, 8, 10, 20]);
            pair_damage::damaged(rng, &good, &[fault])
        }
        _ => good.clone(),
    };
    let stored = |operand: &Operand| !operand.table.starts.is_empty();
    let pair = match stored(&pair.left) && stored(&pair.right) {
        true => pair,
        false => good,
    };
    let (from, to) = numbers(rng, pair.left.table.starts.len());
    let bytes = asked(from, to, &bytes_of(pair));
    match rng.below(6) {
        0 => damaged_bytes(rng, bytes),
        _ => bytes,
    }
}

fn bytes_of(pair: Pair) -> Vec<u8> {
    let Pair {
        operation,
        left,
        right,
    } = pair;
    job::encode(&Job {
        operation,
        left,
        right,
    })
}

/// Cut short, longer, or with a word other than it was, one of the first of which three
/// are the operation and the left's counts.
fn damaged_bytes(rng: &mut Rng, mut bytes: Vec<u8>) -> Vec<u8> {
    match rng.below(4) {
        0 => bytes.truncate(rng.below(bytes.len())),
        1 => bytes.resize(bytes.len() + 1 + rng.below(40), 0),
        _ => {
            let any = rng.below(bytes.len() / 4);
            let word = rng.pick(&[2, 7, 8, 9, any]);
            let value = rng.pick(&[0, 1, 2, 5, 2_049, 8_193, 1 << 30, 1 << 31, u32::MAX]);
            put(&mut bytes, word, value);
        }
    }
    bytes
}

#[cfg(test)]
mod tests {
    use super::*;
    use judge::shard::shard;
    use judge::Fault;
    use std::collections::BTreeMap;

    fn tally(all: impl IntoIterator<Item = Vec<u8>>) -> BTreeMap<Fault, usize> {
        let mut out = BTreeMap::new();
        for bytes in all {
            *out.entry(shard(&bytes).err().unwrap_or(0)).or_default() += 1;
        }
        out
    }

    #[test]
    fn small_jobs_are_refused_at_every_other_length_and_by_no_number() {
        assert_eq!(tally(every_two()), BTreeMap::from([(0, 81)]));
        let whole = asked(1, 3, &small_job()).len();
        let of_job = tally(every_length().step_by(2));
        assert_eq!(
            of_job,
            BTreeMap::from([(0, 1), (7, whole - 12 + 4), (13, 12)])
        );
        let whole = 8 + 4 + 2 * (16 + 8 + 4);
        let of_zeros = tally(every_length().skip(1).step_by(2));
        assert_eq!((of_zeros[&0], of_zeros[&13]), (1, 12));
        assert!(shard(&vec![0; whole]).is_ok());
    }

    #[test]
    fn the_words_that_are_counts_are_where_they_should_be() {
        let whole = asked(0, 3, &small_job());
        let at = |word: usize| whole[4 * word];
        assert_eq!(count_words().map(at), [4, 8, 2, 5]);
        let told = tally(wrong_words());
        assert_eq!(told.get(&13), Some(&5));
        assert!(told[&7] > 40, "{told:?}");
    }

    #[test]
    fn every_fate_occurs_of_each_kind() {
        let mut rng = Rng::new(151);
        let of_limits = tally(limits());
        assert!(of_limits[&0] > 50 && of_limits[&7] >= 22, "{of_limits:?}");
        let of_rules = tally(broken(&mut rng, 2));
        assert!(of_rules[&0] >= 20 && of_rules[&7] > 50, "{of_rules:?}");
        let random = tally((0..3_000).map(|_| any(&mut rng)));
        assert!(random[&0] > 1_500 && random[&7] > 300, "{random:?}");
        assert!(random[&13] > 10, "{random:?}");
    }
}
