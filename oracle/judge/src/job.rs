//! A pair job: one u32 (0 sum, 1 difference), then for the left and then
//! the right operand four i32 (least x, greatest x, least y, greatest y) and a stored
//! table, little-endian; its faults, 13, 7, and then those of pairs; and the text of
//! the pairs program.

use crate::listing::refusal;
use crate::pairs::{self, result_bounds, Operand, Operation};
use crate::stored;
use crate::table::Table;
use crate::{Contour, Fault};

#[derive(Debug, Clone, PartialEq, Eq)]
pub struct Job {
    pub operation: Operation,
    pub left: Operand,
    pub right: Operand,
}

pub fn encode(job: &Job) -> Vec<u8> {
    let number: u32 = match job.operation {
        Operation::Sum => 0,
        Operation::Difference => 1,
    };
    let mut bytes = number.to_le_bytes().to_vec();
    for operand in [&job.left, &job.right] {
        bytes.extend(operand.bounds.iter().flat_map(|b| b.to_le_bytes()));
        bytes.extend(stored::encode(&operand.table));
    }
    bytes
}

/// The job of bytes that have its shape; 13 or 7 where they do not. The tables are
/// as they stand there: their rules are `fault`'s to judge.
pub fn decode(bytes: &[u8]) -> Result<Job, Fault> {
    let (number, rest) = bytes.split_first_chunk::<4>().ok_or(13u32)?;
    let operation = match u32::from_le_bytes(*number) {
        0 => Operation::Sum,
        1 => Operation::Difference,
        _ => return Err(13),
    };
    let (left, rest) = operand(rest).ok_or(7u32)?;
    let (right, rest) = operand(rest).ok_or(7u32)?;
    if !rest.is_empty() {
        return Err(7);
    }
    Ok(Job {
        operation,
        left,
        right,
    })
}

/// An operand at the front of the bytes, and the bytes after it.
fn operand(bytes: &[u8]) -> Option<(Operand, &[u8])> {
    let word = |k: usize| Some(<[u8; 4]>::try_from(bytes.get(4 * k..4 * k + 4)?).unwrap());
    let count = |k: usize| Some(u64::from(u32::from_le_bytes(word(k)?)));
    let (parts, corners) = (count(4)?, count(5)?);
    let size = 4 * (4 + 2 + parts + 1 + 2 * corners);
    if (bytes.len() as u64) < size {
        return None;
    }
    let number = |k: usize| i32::from_le_bytes(word(k).unwrap());
    let starts = 6..6 + parts as usize + 1;
    let flat = starts.end..starts.end + 2 * corners as usize;
    let operand = Operand {
        bounds: [0, 1, 2, 3].map(number),
        table: Table {
            starts: starts.map(|k| number(k) as u32).collect(),
            corners: flat.map(number).collect(),
        },
    };
    Some((operand, &bytes[size as usize..]))
}

pub fn fault(bytes: &[u8]) -> Fault {
    match decode(bytes) {
        Err(fault) => fault,
        Ok(job) => pairs::fault(job.operation, &job.left, &job.right),
    }
}

/// What is printed: the contours of all pairs, or the refusal.
pub fn text(bytes: &[u8], contours: impl Fn(&Job) -> Vec<Contour>) -> String {
    match (fault(bytes), decode(bytes)) {
        (0, Ok(job)) => lines(&job, &contours(&job)),
        (fault, _) => refusal(fault),
    }
}

fn lines(job: &Job, contours: &[Contour]) -> String {
    let corners: usize = contours.iter().map(Vec::len).sum();
    let [a, b, c, d] = result_bounds(job.operation, job.left.bounds, job.right.bounds);
    let count = contours.len();
    let mut out = format!("contours {count} corners {corners} bounds {a} {b} {c} {d}\n");
    for (k, contour) in contours.iter().enumerate() {
        let (i, j) = (k / job.right.table.parts(), k % job.right.table.parts());
        out += &format!("{i} {j} {}", contour.len());
        for (x, y) in contour {
            out += &format!(" ({x},{y})");
        }
        out += "\n";
    }
    out
}

#[cfg(test)]
mod tests {
    use super::*;

    fn triangle() -> Operand {
        Operand {
            table: Table::of(&[vec![(0, 0), (2, 0), (0, 2)]]),
            bounds: [0, 2, 0, 2],
        }
    }

    #[test]
    fn a_job_is_read_back_as_written_and_no_other_length_is_one() {
        let job = Job {
            operation: Operation::Difference,
            left: triangle(),
            right: triangle(),
        };
        let bytes = encode(&job);
        assert_eq!(bytes.len(), 4 + 2 * (16 + 8 + 8 + 24));
        assert_eq!(decode(&bytes), Ok(job));
        for size in 0..bytes.len() {
            assert_eq!(fault(&bytes[..size]), if size < 4 { 13 } else { 7 });
        }
        assert_eq!(fault(&[&bytes[..], &[0]].concat()), 7);
        assert_eq!(fault(&[&[2, 0, 0, 0], &bytes[4..]].concat()), 13);
    }

    #[test]
    fn the_text_of_a_job() {
        let job = Job {
            operation: Operation::Sum,
            left: triangle(),
            right: triangle(),
        };
        let bytes = encode(&job);
        let contour = vec![(0, 0), (4, 0), (0, 4)];
        assert_eq!(
            text(&bytes, |_| vec![contour.clone()]),
            "contours 1 corners 3 bounds 0 4 0 4\n0 0 3 (0,0) (4,0) (0,4)\n"
        );
        assert_eq!(text(&bytes[..3], |_| vec![]), "refused 13\n");
    }
}
