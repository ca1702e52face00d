//! A shard of a pair job: two u32 (from, to) and then a job, to the job of the left parts
//! from number `from` to before `to`. 13 and 7 where the job's shape is broken; what its
//! corners and bounds are, and the right starts, is not asked.

use crate::job::{self, Job};
use crate::limits::{CORNERS, PARTS};
use crate::pairs::Operand;
use crate::table::{breaks_starts, Table};
use crate::{word, Fault};

/// The job of the left parts asked for, all else as it stands; or the fault.
pub fn shard(bytes: &[u8]) -> Result<Job, Fault> {
    let (from, rest) = word(bytes).ok_or(13u32)?;
    let (to, rest) = word(rest).ok_or(13u32)?;
    let job = job::decode(rest)?;
    if [&job.left, &job.right].map(passes_limit).contains(&true) || breaks_starts(&job.left.table) {
        return Err(7);
    }
    let parts = job.left.table.contours();
    let to = parts.len().min(to as usize);
    let from = to.min(from as usize);
    let left = Operand {
        table: Table::of(&parts[from..to]),
        bounds: job.left.bounds,
    };
    Ok(Job { left, ..job })
}

/// Whether the part count or the corner count is past its limit. (How many corners a
/// contour has is no count of the job.)
fn passes_limit(operand: &Operand) -> bool {
    operand.table.parts() > PARTS || operand.table.corner_count() > CORNERS
}

#[cfg(test)]
mod tests {
    use super::*;
    use crate::limits::CONTOUR;
    use crate::pairs::Operation;
    use crate::Contour;

    fn job(left: &[Contour], right: &[Contour]) -> Job {
        Job {
            operation: Operation::Difference,
            left: Operand {
                table: Table::of(left),
                bounds: [1, 2, 3, 4],
            },
            right: Operand {
                table: Table::of(right),
                bounds: [5, 6, 7, i32::MIN],
            },
        }
    }

    fn asked(from: u32, to: u32, job: &Job) -> Vec<u8> {
        let numbers = [from, to].map(u32::to_le_bytes).concat();
        [numbers, job::encode(job)].concat()
    }

    fn three() -> [Contour; 3] {
        [vec![(1, 2), (3, 4)], vec![], vec![(5, 6)]]
    }

    #[test]
    fn every_from_and_to() {
        let whole = job(&three(), &three());
        let numbers = [0, 1, 2, 3, 4, 1 << 31, u32::MAX];
        for from in numbers {
            for to in numbers {
                let (first, end) = (from.min(3) as usize, to.min(3) as usize);
                let left = three().get(first..end).unwrap_or_default().to_vec();
                let told = shard(&asked(from, to, &whole));
                assert_eq!(told, Ok(job(&left, &three())), "{from} {to}");
            }
        }
        assert_eq!(shard(&asked(0, 3, &whole)), Ok(whole));
    }

    #[test]
    fn no_other_length_is_one() {
        let bytes = asked(1, 2, &job(&three(), &three()));
        for size in 0..bytes.len() {
            let fault = if size < 12 { 13 } else { 7 };
            assert_eq!(shard(&bytes[..size]), Err(fault), "{size}");
        }
        assert_eq!(shard(&[&bytes[..], &[0]].concat()), Err(7));
        let mut other = bytes;
        other[8] = 2;
        assert_eq!(shard(&other), Err(13));
    }

    #[test]
    fn left_starts_and_counts_are_judged_and_nothing_else() {
        let told = |change: &dyn Fn(&mut Job)| {
            let mut changed = job(&three(), &three());
            change(&mut changed);
            shard(&asked(0, u32::MAX, &changed)).map(|told| told == changed)
        };
        assert_eq!(told(&|j| j.left.table.starts[0] = 1), Err(7));
        assert_eq!(told(&|j| j.left.table.starts[1] = 1), Ok(true));
        assert_eq!(told(&|j| j.left.table.starts[1] = 3), Err(7));
        assert_eq!(told(&|j| j.left.table.starts[2] = 1), Err(7));
        assert_eq!(told(&|j| j.left.table.starts[3] = 2), Err(7));
        assert_eq!(told(&|j| j.right.table.starts = vec![9, 7, 8, 1]), Ok(true));
        assert_eq!(told(&|j| j.left.table.corners[0] = i32::MIN), Ok(true));
        let parts = |n: usize| Table::of(&vec![vec![]; n]);
        assert_eq!(told(&|j| j.left.table = parts(PARTS)), Ok(true));
        assert_eq!(told(&|j| j.left.table = parts(PARTS + 1)), Err(7));
        assert_eq!(told(&|j| j.right.table = parts(PARTS)), Ok(true));
        assert_eq!(told(&|j| j.right.table = parts(PARTS + 1)), Err(7));
        let corners = |n: usize| Table::of(&[vec![(0, 0); n]]);
        assert_eq!(told(&|j| j.left.table = corners(CONTOUR + 1)), Ok(true));
        assert_eq!(told(&|j| j.left.table = corners(CORNERS)), Ok(true));
        assert_eq!(told(&|j| j.left.table = corners(CORNERS + 1)), Err(7));
        assert_eq!(told(&|j| j.right.table = corners(CORNERS + 1)), Err(7));
    }
}
