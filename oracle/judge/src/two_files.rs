//! Two mesh files one behind the other: the left is as many bytes as its own header's
//! total says, the right is all the rest. The left's numbers (13, 1, 2, 3, 4, 5, 6, 11)
//! come before any of the right's.

use crate::file::{self, MeshFile};
use crate::mesh::Triangle;
use crate::{word, Fault, Point};

/// Both files, or the first fault.
pub fn decode(bytes: &[u8]) -> Result<[MeshFile; 2], Fault> {
    let [left, right] = parted(bytes);
    Ok([file::decode(left)?, file::decode(right)?])
}

/// Each file's bytes. A total past the bytes leaves all of them to the left, which then
/// is not as long as its total: its own 13, or what comes before it.
fn parted(bytes: &[u8]) -> [&[u8]; 2] {
    let total = word(bytes).map_or(0, |(total, _)| total as usize);
    let (left, right) = bytes.split_at(total.min(bytes.len()));
    [left, right]
}

/// Least and greatest x, least and greatest y over all vertices. An empty mesh has none
/// and is refused by 20; zeros stand for them, so that no result bound leaves the range.
pub fn bounds(mesh: &[Triangle]) -> [i32; 4] {
    let of = |number: fn(&Point) -> i32| {
        let all = || mesh.iter().flat_map(|t| &t.points).map(number);
        [all().min(), all().max()].map(Option::unwrap_or_default)
    };
    let ([least_x, greatest_x], [least_y, greatest_y]) = (of(|p| p.0), of(|p| p.1));
    [least_x, greatest_x, least_y, greatest_y]
}

#[cfg(test)]
mod tests {
    use super::*;
    use crate::file::{encode, Split};
    use crate::limits::NONE;

    fn one(points: [Point; 3]) -> MeshFile {
        MeshFile {
            limit: 3,
            split: Split::Fan,
            mesh: vec![Triangle {
                points,
                neighbours: [NONE; 3],
            }],
        }
    }

    fn two() -> [MeshFile; 2] {
        [
            one([(0, 0), (4, 0), (0, 4)]),
            one([(-7, 1), (5, 0), (3, 9)]),
        ]
    }

    fn with(bytes: &[u8], at: usize, value: u32) -> Vec<u8> {
        let mut out = bytes.to_vec();
        out[at..at + 4].copy_from_slice(&value.to_le_bytes());
        out
    }

    #[test]
    fn two_files_are_read_back_and_no_other_length_is_two() {
        let bytes = two().map(|file| encode(&file)).concat();
        assert_eq!(decode(&bytes), Ok(two()));
        for size in 0..bytes.len() {
            assert_eq!(decode(&bytes[..size]), Err(13), "{size}");
        }
        assert_eq!(decode(&[&bytes[..], &[0]].concat()), Err(13));
    }

    #[test]
    fn a_left_total_that_cannot_be_is_the_lefts_13_after_its_1() {
        let bytes = two().map(|file| encode(&file)).concat();
        // the right's 2 does not come before it
        let hurt = with(&bytes, 56 + 20, 1 << 30);
        assert_eq!(decode(&hurt), Err(2));
        for total in [0, 4, 19, 20, 55, 57, 92, 112, 113, u32::MAX] {
            assert_eq!(decode(&with(&hurt, 0, total)), Err(13), "{total}");
        }
        // the second triangle of the left is then the right's header and more
        let longer = with(&with(&hurt, 0, 92), 4, 2);
        assert!(decode(&longer).is_err());
        assert_eq!(decode(&with(&hurt, 4, 1_025)), Err(1));
        assert_eq!(decode(&with(&with(&hurt, 4, 1_025), 0, u32::MAX)), Err(1));
    }

    #[test]
    fn every_number_of_the_left_is_before_those_of_the_right() {
        let bytes = two().map(|file| encode(&file)).concat();
        let right_13 = with(&bytes, 56 + 8, 24);
        assert_eq!(decode(&right_13), Err(13));
        assert_eq!(decode(&with(&right_13, 20, 1 << 30)), Err(2));
        assert_eq!(decode(&with(&right_13, 44, 0)), Err(3));
        assert_eq!(decode(&with(&right_13, 28, 0)), Err(6));
        assert_eq!(decode(&with(&right_13, 16, 3)), Err(13));
    }

    #[test]
    fn bounds_are_over_all_vertices() {
        let [left, right] = two();
        assert_eq!(bounds(&left.mesh), [0, 4, 0, 4]);
        assert_eq!(bounds(&right.mesh), [-7, 5, 0, 9]);
        let both = [left.mesh, right.mesh].concat();
        assert_eq!(bounds(&both), [-7, 5, 0, 9]);
        assert_eq!(bounds(&[]), [0; 4]);
    }
}
