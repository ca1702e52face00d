//! What a stored sample is (vectors/README.md has the layouts): cases, in bytes, and
//! the lines that a program which asks them has to print.

use crate::program_samples::{contours_sample, pairshard_sample, parts_sample, placed_sample};
use crate::written::Written;
use crate::{mesh_sample, pairs_sample, path_sample, plane_sample, split_sample, table_sample};
use std::fmt::Display;

/// The stored samples by the names of their files.
pub const SAMPLES: [(&str, fn() -> Sample); 10] = [
    ("plane", plane_sample::sample),
    ("tables", table_sample::sample),
    ("meshes", mesh_sample::sample),
    ("splits", split_sample::sample),
    ("pairs", pairs_sample::sample),
    ("paths", path_sample::sample),
    ("parts", parts_sample),
    ("contours", contours_sample),
    ("placed", placed_sample),
    ("pairshard", pairshard_sample),
];

/// A case: its record, and its line after the case's number.
#[derive(Debug, Clone)]
pub struct Case {
    pub record: Vec<u8>,
    pub line: String,
}

/// The records one after another, the lines, and how many there are of each.
pub struct Sample {
    pub cases: Vec<u8>,
    pub lines: String,
    pub count: usize,
}

impl Sample {
    pub fn of(cases: &[Case]) -> Self {
        let line = |(k, case): (usize, &Case)| format!("case {k}{}\n", case.line);
        Self {
            cases: cases.iter().flat_map(|case| case.record.clone()).collect(),
            lines: cases.iter().enumerate().map(line).collect(),
            count: cases.len(),
        }
    }
}

/// How many bytes a record has, as its first word, and then the others.
pub fn record(pieces: &[Vec<u8>]) -> Vec<u8> {
    let others = pieces.concat();
    [words(&[4 + others.len() as u32]), others].concat()
}

pub fn words(list: &[u32]) -> Vec<u8> {
    list.iter().flat_map(|w| w.to_le_bytes()).collect()
}

pub fn numbers(list: &[i32]) -> Vec<u8> {
    list.iter().flat_map(|v| v.to_le_bytes()).collect()
}

/// A name, and each of the list after a space.
pub fn listed(name: &str, list: &[impl Display]) -> String {
    let each: String = list.iter().map(|v| format!(" {v}")).collect();
    format!("{name}{each}")
}

/// What a call that writes parts told and left in the lent places.
pub fn left(written: Written) -> String {
    let counts = written.counts;
    let (starts, corners) = (written.starts.slice(), written.corners.slice());
    format!(
        "fault {}, parts {}, corners {}; {}; {}",
        counts.fault,
        counts.parts,
        counts.corners,
        listed("starts", starts),
        listed("corners", corners)
    )
}

#[cfg(test)]
pub(crate) fn word(bytes: &[u8], k: usize) -> u32 {
    u32::from_le_bytes(bytes[4 * k..4 * k + 4].try_into().unwrap())
}

/// The records as their first words part them.
#[cfg(test)]
pub(crate) fn parted(mut bytes: &[u8]) -> Vec<&[u8]> {
    let mut out = Vec::new();
    while !bytes.is_empty() {
        let (record, rest) = bytes.split_at(word(bytes, 0) as usize);
        out.push(record);
        bytes = rest;
    }
    out
}

/// A sample's records and lines: as many of each as there are cases, the longest
/// record of so many bytes.
#[cfg(test)]
pub(crate) fn taken_apart(sample: &Sample, longest: usize) -> (Vec<&[u8]>, Vec<&str>) {
    let records = parted(&sample.cases);
    let lines: Vec<&str> = sample.lines.lines().collect();
    assert_eq!((records.len(), lines.len()), (sample.count, sample.count));
    assert_eq!(records.iter().map(|r| r.len()).max(), Some(longest));
    (records, lines)
}

/// How many of the lines tell this fault.
#[cfg(test)]
pub(crate) fn told(lines: &[&str], fault: judge::Fault) -> usize {
    let told = |line: &&&str| {
        let (_, after) = line.split_once(": fault ").expect("a fault");
        after.split([',', ';']).next() == Some(fault.to_string().as_str())
    };
    lines.iter().filter(told).count()
}
