//! What the Rattle programs `parts`, `contours`, `placed` and `pairshard` have to write
//! for the bytes that they read: the judge's refusals, jobs and places, with the given
//! Rust's parts and pair contours.

use crate::answers::{pair_contours, parts_of_file};
use judge::file::MeshFile;
use judge::job::Job;
use judge::{programs, Contour};

/// The bytes that a program has to write for those that it reads.
pub type Writes = fn(&[u8]) -> Vec<u8>;

/// The programs by their names.
pub const PROGRAMS: [(&str, Writes); 4] = [
    ("parts", parts),
    ("contours", contours),
    ("placed", programs::placed),
    ("pairshard", programs::pairshard),
];

pub fn parts(bytes: &[u8]) -> Vec<u8> {
    programs::parts(bytes, split)
}

pub fn contours(bytes: &[u8]) -> Vec<u8> {
    programs::contours(bytes, split, pairs)
}

fn split(file: &MeshFile) -> Vec<Contour> {
    parts_of_file(file).expect("an accepted mesh")
}

fn pairs(job: &Job) -> Vec<Contour> {
    pair_contours(job.operation, &job.left, &job.right).expect("an accepted job")
}

#[cfg(test)]
mod tests {
    use super::*;
    use judge::file::{encode, Split};
    use judge::limits::NONE;
    use judge::mesh::Triangle;

    /// Document 01's square, by its two triangles.
    fn square(limit: u32, split: Split) -> Vec<u8> {
        let triangle = |points, neighbours| Triangle { points, neighbours };
        let mesh = vec![
            triangle([(0, 0), (4, 0), (4, 4)], [NONE, 1, NONE]),
            triangle([(0, 0), (4, 4), (0, 4)], [NONE, NONE, 0]),
        ];
        encode(&MeshFile { limit, split, mesh })
    }

    fn numbers(list: &[i32]) -> Vec<u8> {
        list.iter().flat_map(|v| v.to_le_bytes()).collect()
    }

    #[test]
    fn the_squares_parts() {
        let whole = numbers(&[1, 4, 0, 4, 0, 4, 0, 0, 4, 0, 4, 4]);
        assert_eq!(parts(&square(4, Split::Ear)), whole);
        let ears = [2, 6, 0, 3, 6, 0, 4, 0, 0, 4, 0, 4, 0, 4, 4, 0, 4];
        assert_eq!(parts(&square(0, Split::Ear)), numbers(&ears));
    }

    #[test]
    fn each_mesh_is_cut_by_its_own_header() {
        let (whole, ears) = (square(4, Split::Ear), square(3, Split::Ear));
        let bytes = [numbers(&[1]), whole.clone(), ears.clone()].concat();
        let told = String::from_utf8(contours(&bytes)).unwrap();
        let lines: Vec<&str> = told.lines().collect();
        assert_eq!(lines[0], "contours 2 corners 10 bounds -4 4 -4 4");
        assert_eq!(lines[1], "0 0 5 (0,-4) (4,-4) (4,4) (-4,4) (-4,0)");
        assert_eq!(lines[2], "0 1 5 (-4,-4) (4,-4) (4,0) (0,4) (-4,4)");
        let bytes = [numbers(&[1]), ears, whole].concat();
        let told = String::from_utf8(contours(&bytes)).unwrap();
        assert!(told.lines().nth(2).unwrap().starts_with("1 0 5 "));
    }
}
