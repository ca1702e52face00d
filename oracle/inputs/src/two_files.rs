//! Two mesh files one behind the other, as bytes: small ones at every length, each field
//! of either header wrong, every fault of either file by name, the limits, random ones.

use crate::coordinates::EDGE;
use crate::mesh_damage::damaged;
use crate::meshes::{self, Mesh};
use crate::placements;
use crate::rng::Rng;
use crate::stored::{damaged_file, put};
use judge::file::{self, MeshFile, Split};
use judge::limits::{NONE, TRIANGLES};
use judge::mesh::Triangle;
use judge::pairs::Operation;
use judge::{Fault, Point};

/// The numbers of one file, in the order in which they are tried.
pub const FAULTS: [Fault; 8] = [13, 1, 2, 3, 4, 5, 6, 11];

const SPLITS: [Split; 3] = [Split::Ear, Split::Fan, Split::Centroid];

pub fn file(mesh: Mesh, limit: u32, split: Split) -> Vec<u8> {
    file::encode(&MeshFile { limit, split, mesh })
}

/// Document 01's dart and its square, cut by ears: two files of 92 bytes.
pub fn desk() -> Vec<u8> {
    let triangle = |points, neighbours| Triangle { points, neighbours };
    let dart = vec![
        triangle([(0, 0), (4, 0), (0, 4)], [1, NONE, NONE]),
        triangle([(4, 0), (10, -2), (0, 4)], [NONE, 0, NONE]),
    ];
    let square = vec![
        triangle([(0, 0), (4, 0), (4, 4)], [NONE, 1, NONE]),
        triangle([(0, 0), (4, 4), (0, 4)], [NONE, NONE, 0]),
    ];
    [file(dart, 0, Split::Ear), file(square, 3, Split::Ear)].concat()
}

/// How many bytes each of the two has.
const DESK: usize = 92;

/// Every length up to one longer than both: the two files as far as they go, and zeros.
pub fn every_length() -> impl Iterator<Item = Vec<u8>> {
    (0..=2 * DESK + 1).flat_map(|length| {
        let mut bytes = desk();
        bytes.resize(length, 0);
        [bytes, vec![0; length]]
    })
}

/// The words of a header that can be wrong, with values about the right one and at the
/// ends of 32 bits: total, count, offset, split. A total also of both files, one byte
/// fewer and one more.
const WRONG: [(usize, &[u32]); 4] = [
    (0, &[0, 19, 20, 56, 91, 93, 128, 183, 184, 185, u32::MAX]),
    (1, &[0, 1, 3, 1_024, 1_025, u32::MAX]),
    (2, &[0, 19, 21, 24, 56, u32::MAX]),
    (4, &[3, 4, 256, u32::MAX]),
];

/// Both files with each field of either header wrong, alone and every two.
pub fn wrong_headers() -> Vec<Vec<u8>> {
    let fields = [0, DESK / 4].map(|at| WRONG.map(|(word, values)| (at + word, values)));
    let fields = fields.concat();
    let with = |bytes: &[u8], word, value| {
        let mut out = bytes.to_vec();
        put(&mut out, word, value);
        out
    };
    let mut out = Vec::new();
    for (i, &(word, values)) in fields.iter().enumerate() {
        for &value in values {
            let one = with(&desk(), word, value);
            for &(other, more) in &fields[i + 1..] {
                out.extend(more.iter().map(|&value| with(&one, other, value)));
            }
            out.push(one);
        }
    }
    out
}

// ---- faults by name

/// A file with this fault and no earlier one; 0 is none. Its length is what its count
/// says, so that a file behind it begins where it should.
pub fn with_fault(rng: &mut Rng, fault: Fault) -> Vec<u8> {
    let good = any_file(rng);
    match fault {
        0 => file::encode(&good),
        13 => wrong_field(rng, &file::encode(&good)),
        _ => {
            let mesh = damaged(rng, &good.mesh, &[fault]);
            file(mesh, good.limit, good.split)
        }
    }
}

/// One field of the header wrong, the count at most 1,024.
fn wrong_field(rng: &mut Rng, good: &[u8]) -> Vec<u8> {
    let length = good.len() as u32;
    let count = (length - 20) / 36;
    let mut bytes = good.to_vec();
    let (word, value) = match rng.below(4) {
        0 => {
            let totals = [0, 4, 19, length - 1, length + 1, length + 36, u32::MAX];
            (0, rng.pick(&totals))
        }
        1 => (1, rng.pick(&[count + 1, 1_024])),
        2 => (2, rng.pick(&[0, 19, 21, 24, u32::MAX])),
        _ => (4, rng.pick(&[3, 4, 256, u32::MAX])),
    };
    put(&mut bytes, word, value);
    bytes
}

/// Each fault of the left, or none, with each of the right, or none, so many times.
pub fn by_name(rng: &mut Rng, times: usize) -> Vec<Vec<u8>> {
    let mut out = Vec::new();
    for _ in 0..times {
        for left in [0].into_iter().chain(FAULTS) {
            for right in [0].into_iter().chain(FAULTS) {
                out.push([with_fault(rng, left), with_fault(rng, right)].concat());
            }
        }
    }
    out
}

// ---- limits

fn one(points: [Point; 3]) -> Mesh {
    meshes::linked(&[points])
}

/// Each result bound at ±(2^30 − 1), and one past it.
pub fn edges(operation: Operation) -> Vec<Vec<u8>> {
    // a quarter turn keeps a triangle counter-clockwise
    let turned = |reach: i32, quarters: usize| {
        let turn = |(x, y): Point| (-y, x);
        let points = [(0, 0), (reach, 0), (0, 1)];
        one(points.map(|p| (0..quarters).fold(p, |p, _| turn(p))))
    };
    let mut out = Vec::new();
    for quarters in 0..4 {
        let other = match operation {
            Operation::Sum => quarters,
            Operation::Difference => quarters + 2,
        };
        for (left, right) in [(EDGE - 5, 5), (EDGE - 5, 6), (1, EDGE - 1), (1, EDGE)] {
            let meshes = [turned(left, quarters), turned(right, other)];
            out.push(meshes.map(|mesh| file(mesh, 0, Split::Ear)).concat());
        }
    }
    out
}

/// The limits of number and area on either side, the other being one triangle or none;
/// too many bytes behind both.
pub fn limits(rng: &mut Rng) -> Vec<Vec<u8>> {
    let counts = [0, TRIANGLES - 1, TRIANGLES, TRIANGLES + 1, 5_000];
    let mut all: Vec<Mesh> = counts.map(meshes::apart).to_vec();
    all.extend([false, true].map(|one_more| meshes::area_limit(rng, one_more)));
    let mut out = Vec::new();
    for mesh in all {
        for other in [one([(0, 0), (1, 0), (0, 1)]), Mesh::new()] {
            let split = rng.pick(&SPLITS);
            let [mesh, other] = [mesh.clone(), other].map(|mesh| file(mesh, 3, split));
            out.push([&mesh[..], &other].concat());
            out.push([other, mesh].concat());
        }
    }
    let longest = [TRIANGLES, TRIANGLES].map(|n| file(meshes::apart(n), 0, Split::Ear));
    for good in [desk(), longest.concat()] {
        for more in [1, 4, 20, 36, 1_000, 100_000] {
            let mut bytes = good.clone();
            bytes.resize(good.len() + more, 0);
            out.push(bytes);
        }
    }
    out
}

/// As many triangles as there may be on both sides: one region each, whole or cut into as
/// many parts as triangles; squares, and triangles alone; and some of other kinds.
pub fn largest(rng: &mut Rng) -> Vec<Vec<u8>> {
    let region = || meshes::region(&meshes::parabola(TRIANGLES + 2));
    let square = meshes::linked(&[[(0, 0), (4, 0), (4, 4)], [(0, 0), (4, 4), (0, 4)]]);
    let squares = meshes::copies(rng, &square, TRIANGLES / 2);
    let whole = file(region(), u32::MAX, Split::Ear);
    let cut = file(region(), 0, Split::Fan);
    let alone = file(meshes::apart(TRIANGLES), 0, Split::Ear);
    let quarters = file(squares, 0, Split::Centroid);
    let mut out = vec![
        [&whole[..], &whole].concat(),
        [&cut[..], &whole].concat(),
        [&whole[..], &quarters].concat(),
        [&alone[..], &alone].concat(),
    ];
    out.extend((0..2).map(|_| {
        let files = [meshes::large(rng), meshes::large(rng)];
        files.map(|mesh| file(mesh, 40, Split::Ear)).concat()
    }));
    out
}

// ---- random ones

/// A good file, mostly of few triangles, with limits of every size and every split.
fn any_file(rng: &mut Rng) -> MeshFile {
    let mesh = match rng.below(40) {
        0 => meshes::good(rng, 100),
        1..=9 => meshes::good(rng, 20),
        _ => placements::mesh(rng),
    };
    MeshFile {
        limit: rng.pick(&[0, 1, 2, 3, 3, 4, 4, 5, 6, 7, 10, 1_026, u32::MAX]),
        split: rng.pick(&SPLITS),
        mesh,
    }
}

/// Two accepted files, or ones with a fault or a damage on either side.
pub fn any(rng: &mut Rng) -> Vec<u8> {
    let [left, right] = [any_file(rng), any_file(rng)];
    let good = [file::encode(&left), file::encode(&right)].concat();
    match rng.below(12) {
        0 => {
            let fault = rng.pick(&FAULTS);
            [with_fault(rng, fault), file::encode(&right)].concat()
        }
        1 => {
            let fault = rng.pick(&FAULTS);
            [file::encode(&left), with_fault(rng, fault)].concat()
        }
        2 => [damaged_file(rng, &left), file::encode(&right)].concat(),
        3 => [file::encode(&left), damaged_file(rng, &right)].concat(),
        4 => damaged_bytes(rng, good),
        _ => good,
    }
}

/// Cut short, with bytes behind, or with some bytes other than they were.
fn damaged_bytes(rng: &mut Rng, mut bytes: Vec<u8>) -> Vec<u8> {
    match rng.below(3) {
        0 => bytes.truncate(rng.below(bytes.len())),
        1 => bytes.resize(bytes.len() + 1 + rng.below(40), rng.pick(&[0, 1, 0xff])),
        _ => {
            for _ in 0..1 + rng.below(3) {
                let at = rng.below(bytes.len());
                bytes[at] = rng.pick(&[0, 1, 0x7f, 0x80, 0xff]);
            }
        }
    }
    bytes
}

#[cfg(test)]
mod tests {
    use super::*;
    use judge::pairs::result_leaves_range;
    use judge::two_files::{bounds, decode};
    use std::collections::BTreeMap;

    fn fault(bytes: &[u8]) -> Fault {
        decode(bytes).err().unwrap_or(0)
    }

    #[test]
    fn each_fault_by_name_is_told_the_lefts_first() {
        let mut rng = Rng::new(141);
        let all = [0].into_iter().chain(FAULTS);
        let named: Vec<Fault> = all
            .clone()
            .flat_map(|left| {
                all.clone()
                    .map(move |right| if left == 0 { right } else { left })
            })
            .collect();
        for _ in 0..30 {
            let told: Vec<Fault> = by_name(&mut rng, 1).iter().map(|b| fault(b)).collect();
            assert_eq!(told, named);
        }
    }

    #[test]
    fn no_length_and_no_header_but_the_right_one_is_accepted() {
        let accepted = every_length().filter(|bytes| fault(bytes) == 0).count();
        assert_eq!(accepted, 1);
        let told: Vec<Fault> = wrong_headers().iter().map(|b| fault(b)).collect();
        let alone = 2 * (11 + 6 + 6 + 4);
        let of_one_field = 2 * (11 * 11 + 6 * 6 + 6 * 6 + 4 * 4);
        assert_eq!(told.len(), alone + (alone * alone - of_one_field) / 2);
        let times = |fault: Fault| told.iter().filter(|&&f| f == fault).count();
        assert_eq!(times(0), 0);
        assert!(times(13) > 500 && times(1) > 100);
    }

    #[test]
    fn bounds_meet_their_limit_from_both_sides() {
        for operation in [Operation::Sum, Operation::Difference] {
            let leaves = |bytes: &Vec<u8>| {
                let [left, right] = decode(bytes).unwrap().map(|file| bounds(&file.mesh));
                result_leaves_range(operation, left, right)
            };
            let told: Vec<bool> = edges(operation).iter().map(leaves).collect();
            assert_eq!(told, [false, true, false, true].repeat(4));
        }
    }

    #[test]
    fn limits_are_met_and_the_largest_are_accepted() {
        let mut rng = Rng::new(142);
        let mut tally: BTreeMap<Fault, usize> = BTreeMap::new();
        for bytes in limits(&mut rng) {
            *tally.entry(fault(&bytes)).or_default() += 1;
        }
        assert_eq!(tally, BTreeMap::from([(0, 16), (1, 8), (11, 4), (13, 12)]));
        for bytes in largest(&mut rng) {
            let files = decode(&bytes).unwrap();
            assert!(files.iter().all(|file| file.mesh.len() >= TRIANGLES - 1));
        }
    }

    #[test]
    fn random_ones_are_mostly_accepted_and_each_fault_occurs() {
        let mut rng = Rng::new(143);
        let mut tally: BTreeMap<Fault, usize> = BTreeMap::new();
        for _ in 0..6_000 {
            *tally.entry(fault(&any(&mut rng))).or_default() += 1;
        }
        assert!(tally[&0] > 3_000, "{tally:?}");
        assert!(FAULTS.iter().all(|f| tally[f] > 50), "{tally:?}");
    }
}
