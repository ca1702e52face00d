//! The stored sample of pair jobs (vectors/README.md has the layout): jobs, in bytes,
//! and what the pairs program has to print of each, with the Rust's contours and the
//! judge's refusals. The same every time.

use crate::sample::{record, words, Case, Sample};
use cli::answers::pair_contours;
use inputs::contours;
use inputs::operands::{self, Pair};
use inputs::pair_damage::{damaged, ORDER};
use inputs::rng::Rng;
use judge::job::{self, Job};
use judge::pairs::{Operand, Operation};
use judge::table::Table;
use judge::{limits, Contour};

const SEED: u64 = 20_261_119;

/// Random jobs that are accepted; jobs of each fault of pairs alone.
const RANDOM: usize = 24;
const ALONE: usize = 3;

/// The jobs, in the order of the records.
pub(crate) fn jobs() -> Vec<Vec<u8>> {
    let mut rng = Rng::new(SEED);
    let mut out: Vec<Vec<u8>> = on_the_desk().iter().map(job::encode).collect();
    out.extend(operands::edges().into_iter().map(bytes));
    out.extend(misshapen());
    out.extend((0..RANDOM).map(|_| bytes(small(&mut rng))));
    for (k, &fault) in ORDER.iter().enumerate() {
        out.extend((0..ALONE).map(|_| hurt(&mut rng, &[fault])));
        out.extend(ORDER[k + 1..].iter().map(|&later| hurt(&mut rng, &[fault, later])));
    }
    out.extend(in_order());
    out
}

fn bytes(pair: Pair) -> Vec<u8> {
    let Pair {
        operation,
        left,
        right,
    } = pair;
    job::encode(&Job {
        operation,
        left,
        right,
    })
}

/// An operand of these contours, within bounds that are just theirs.
fn operand(parts: &[Contour]) -> Operand {
    Operand {
        table: Table::of(parts),
        bounds: contours::bounds(&parts.concat()),
    }
}

fn of(operation: Operation, left: &[Contour], right: &[Contour]) -> Job {
    Job {
        operation,
        left: operand(left),
        right: operand(right),
    }
}

/// Document 01's triangle K.
fn k() -> Contour {
    vec![(0, 0), (2, 0), (0, 2)]
}

/// Document 01's examples: K plus K, K minus K, the point (5,5) plus K, two points;
/// and two parts with three, an empty contour among them.
fn on_the_desk() -> Vec<Job> {
    let point: Contour = vec![(5, 5)];
    let several = [k(), vec![], vec![(0, 0), (4, 0)]];
    vec![
        of(Operation::Sum, &[k()], &[k()]),
        of(Operation::Difference, &[k()], &[k()]),
        of(Operation::Sum, &[point.clone()], &[k()]),
        of(Operation::Sum, &[point.clone()], &[vec![(1, 2)]]),
        of(Operation::Sum, &[k(), point.clone()], &several),
        of(Operation::Difference, &[k(), point], &several),
    ]
}

/// Bytes that are no job: 13 for too few or for another operation, and 7 for another
/// length, an end before a count, and counts past the limits or far past them.
fn misshapen() -> Vec<Vec<u8>> {
    let whole = job::encode(&of(Operation::Sum, &[k()], &[k()]));
    let with = |at: usize, word: u32| {
        let mut bytes = whole.clone();
        bytes[4 * at..4 * at + 4].copy_from_slice(&word.to_le_bytes());
        bytes
    };
    let longer = |more: usize| [&whole[..], &vec![0; more]].concat();
    let right = 4 + (16 + 8 + 8 + 24) + 16;
    let cut = [0, 3, 4, 20, 24, 27, 28, right, right + 4, right + 7, whole.len() - 1];
    let mut out: Vec<Vec<u8>> = cut.iter().map(|&n| whole[..n].to_vec()).collect();
    out.extend([longer(1), longer(4), with(0, 2), with(0, u32::MAX)]);
    let counts = [5, 6, right / 4, right / 4 + 1];
    for at in counts {
        out.extend([with(at, 0), with(at, 2), with(at, u32::MAX)]);
    }
    let many = vec![vec![]; limits::PARTS + 1];
    out.push(job::encode(&of(Operation::Sum, &many, &[k()])));
    out.push(job::encode(&of(Operation::Sum, &[k()], &many)));
    let long = vec![(0, 0); limits::CONTOUR + 1];
    out.push(job::encode(&of(Operation::Difference, &[k()], &[long])));
    out
}

/// A pair that is accepted, with few enough corners for the sample.
fn small(rng: &mut Rng) -> Pair {
    operands::good(rng, 3, 6)
}

/// A job with these faults; a table without starts has no stored form.
fn hurt(rng: &mut Rng, faults: &[u32]) -> Vec<u8> {
    loop {
        let pair = small(rng);
        let pair = damaged(rng, &pair, faults);
        let stored = |o: &Operand| !o.table.starts.is_empty();
        if stored(&pair.left) && stored(&pair.right) {
            let bytes = bytes(pair);
            if bytes.len() < 4096 {
                return bytes;
            }
        }
    }
}

/// The right operand's 7 before the left one's 2, its 2 before the left one's 9, and
/// its 9 before the left one's 8 (a contour that winds too far).
fn in_order() -> Vec<Vec<u8>> {
    let mut rng = Rng::new(SEED);
    let good = of(Operation::Sum, &[k()], &[k()]);
    let far = damaged(
        &mut rng,
        &Pair {
            operation: good.operation,
            left: good.left.clone(),
            right: good.left.clone(),
        },
        &[8],
    );
    let far = [far.left, far.right]
        .into_iter()
        .max_by_key(|o| o.table.corners.len())
        .unwrap();
    let mut broken = good.clone();
    broken.left.table.corners[0] = 1 << 30;
    broken.right.table.starts[1] = 2;
    let mut ranged = good.clone();
    ranged.left.bounds[0] = 1;
    ranged.right.bounds[3] = 1 << 30;
    let mut bounded = good;
    bounded.left = far;
    bounded.right.bounds[2] = 1;
    [broken, ranged, bounded].iter().map(job::encode).collect()
}

/// A head whose other words are 0, and the job.
fn case(job: &[u8]) -> Case {
    let text = job::text(job, |job| {
        pair_contours(job.operation, &job.left, &job.right).expect("an accepted job")
    });
    Case {
        record: record(&[words(&[0; 7]), job.to_vec()]),
        line: format!(":\n{}", text.trim_end()),
    }
}

pub fn sample() -> Sample {
    let cases: Vec<Case> = jobs().iter().map(|job| case(job)).collect();
    Sample::of(&cases)
}

#[cfg(test)]
mod tests {
    use super::*;

    #[test]
    fn the_sample_has_every_refusal_and_document_01s_examples() {
        let lines: Vec<String> = jobs().iter().map(|job| case(job).line).collect();
        let of = |fault: u32| lines.iter().filter(|l| **l == format!(":\nrefused {fault}")).count();
        let refused: Vec<usize> = [13, 7, 2, 9, 8, 10, 20].map(of).to_vec();
        assert!(refused.iter().all(|&n| n >= ALONE), "{refused:?}");
        assert!(lines.len() - refused.iter().sum::<usize>() >= RANDOM + 14);
        let desk = [
            "0 0 3 (0,0) (4,0) (0,4)",
            "0 0 6 (0,-2) (2,-2) (2,0) (0,2) (-2,2) (-2,0)",
            "0 0 3 (5,5) (7,5) (5,7)",
            "0 0 0",
        ];
        for (line, pair) in lines.iter().zip(desk) {
            assert_eq!(line.lines().last(), Some(pair));
        }
        let edges = &lines[6..22];
        assert_eq!(edges.iter().filter(|l| l.contains("1073741823")).count(), 8);
        assert_eq!(edges.iter().filter(|l| *l == ":\nrefused 10").count(), 8);
        let order: Vec<&str> = lines[lines.len() - 3..].iter().map(|l| &l[2..]).collect();
        assert_eq!(order, ["refused 7", "refused 2", "refused 9"]);
    }
}
