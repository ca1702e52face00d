//! What the programs `parts`, `contours`, `placed` and `pairshard` write for the bytes
//! that they read: the answer, or `refused N` and a newline. Parts and pair contours are
//! handed in, since the judge has neither.

use crate::file::{self, MeshFile};
use crate::job::{self, Job};
use crate::limits::point_in_range;
use crate::listing::refusal;
use crate::pairs::{result_leaves_range, Operand, Operation};
use crate::placement::{of_meshes, APART, TOUCHING};
use crate::shard::shard;
use crate::table::Table;
use crate::two_files::{self, bounds};
use crate::{first, stored, word, Contour, Fault};

/// A mesh file to the stored form of its split parts.
pub fn parts(bytes: &[u8], split: impl Fn(&MeshFile) -> Vec<Contour>) -> Vec<u8> {
    written(file::decode(bytes).map(|file| stored::encode(&Table::of(&split(&file)))))
}

/// An operation and two mesh files to what the pairs program prints for their split
/// parts within the meshes' own bounds.
pub fn contours(
    bytes: &[u8],
    split: impl Fn(&MeshFile) -> Vec<Contour>,
    pairs: impl Fn(&Job) -> Vec<Contour>,
) -> Vec<u8> {
    let job = job_of_files(bytes, split);
    written(job.map(|job| job::text(&job::encode(&job), pairs).into_bytes()))
}

fn job_of_files(bytes: &[u8], split: impl Fn(&MeshFile) -> Vec<Contour>) -> Result<Job, Fault> {
    let (number, files) = word(bytes).ok_or(13u32)?;
    let operation = match number {
        0 => Operation::Sum,
        1 => Operation::Difference,
        _ => return Err(13),
    };
    let [left, right] = two_files::decode(files)?.map(|file| Operand {
        table: Table::of(&split(&file)),
        bounds: bounds(&file.mesh),
    });
    Ok(Job {
        operation,
        left,
        right,
    })
}

/// A place and two mesh files to what the right mesh, moved by the place, does with the
/// left one, told by each two triangles.
pub fn placed(bytes: &[u8]) -> Vec<u8> {
    let name = |placement| match placement {
        APART => "apart\n",
        TOUCHING => "touching\n",
        _ => "overlapping\n",
    };
    written(placement_of(bytes).map(|placement| name(placement).into()))
}

fn placement_of(bytes: &[u8]) -> Result<u32, Fault> {
    let (x, rest) = word(bytes).ok_or(13u32)?;
    let (y, files) = word(rest).ok_or(13u32)?;
    let place = (x as i32, y as i32);
    if !point_in_range(place) {
        return Err(2);
    }
    let [left, right] = two_files::decode(files)?.map(|file| file.mesh);
    let leaves = || result_leaves_range(Operation::Difference, bounds(&left), bounds(&right));
    match first(&[(10, &leaves), (20, &|| left.is_empty() || right.is_empty())]) {
        0 => Ok(of_meshes(&left, &right, place)),
        fault => Err(fault),
    }
}

/// Two part numbers and a pair job to the job of those left parts.
pub fn pairshard(bytes: &[u8]) -> Vec<u8> {
    written(shard(bytes).map(|job| job::encode(&job)))
}

fn written(answer: Result<Vec<u8>, Fault>) -> Vec<u8> {
    answer.unwrap_or_else(|fault| refusal(fault).into_bytes())
}

#[cfg(test)]
mod tests {
    use super::*;
    use crate::file::Split;
    use crate::limits::NONE;
    use crate::mesh::Triangle;
    use crate::Point;

    fn file(triangles: &[[Point; 3]]) -> Vec<u8> {
        let triangle = |&points: &[Point; 3]| Triangle {
            points,
            neighbours: [NONE; 3],
        };
        file::encode(&MeshFile {
            limit: 0,
            split: Split::Ear,
            mesh: triangles.iter().map(triangle).collect(),
        })
    }

    const K: [Point; 3] = [(0, 0), (2, 0), (0, 2)];
    const EDGE: i32 = (1 << 30) - 1;

    /// Triangles alone, as the Rust has them: vertex 2, 0, 1.
    fn alone(file: &MeshFile) -> Vec<Contour> {
        let turned = |t: &Triangle| vec![t.points[2], t.points[0], t.points[1]];
        file.mesh.iter().map(turned).collect()
    }

    fn numbers(list: &[i32]) -> Vec<u8> {
        list.iter().flat_map(|v| v.to_le_bytes()).collect()
    }

    #[test]
    fn parts_are_stored_as_a_table() {
        let told = parts(&file(&[K]), alone);
        assert_eq!(told, numbers(&[1, 3, 0, 3, 0, 2, 0, 0, 2, 0]));
        assert_eq!(parts(&file(&[]), alone), numbers(&[0, 0, 0]));
        assert_eq!(parts(&file(&[K])[..55], alone), b"refused 13\n");
        let clockwise = file(&[[(0, 0), (0, 2), (2, 0)]]);
        assert_eq!(parts(&clockwise, alone), b"refused 6\n");
    }

    fn text_of_contours(operation: u32, left: &[[Point; 3]], right: &[[Point; 3]]) -> String {
        let number = operation.to_le_bytes().to_vec();
        let bytes = [number, file(left), file(right)].concat();
        // the contours are not the judge's: here the left part stands for each
        let pairs = |job: &Job| job.left.table.contours();
        String::from_utf8(contours(&bytes, alone, pairs)).unwrap()
    }

    #[test]
    fn contours_have_the_meshes_bounds_and_are_refused_by_10_then_20() {
        let told = text_of_contours(0, &[K], &[K]);
        assert_eq!(
            told,
            "contours 1 corners 3 bounds 0 4 0 4\n0 0 3 (0,2) (0,0) (2,0)\n"
        );
        let told = text_of_contours(1, &[K], &[K]);
        assert!(told.starts_with("contours 1 corners 3 bounds -2 2 -2 2\n"));
        let far = |x: i32| [(0, 0), (x, 0), (0, 2)];
        assert_eq!(text_of_contours(0, &[far(EDGE - 1)], &[K]), "refused 10\n");
        assert!(text_of_contours(0, &[far(EDGE - 2)], &[K]).starts_with("contours 1 "));
        assert!(text_of_contours(1, &[far(EDGE)], &[K]).starts_with("contours 1 "));
        for (left, right) in [
            (vec![], vec![far(EDGE)]),
            (vec![K], vec![]),
            (vec![], vec![]),
        ] {
            assert_eq!(text_of_contours(1, &left, &right), "refused 20\n");
        }
        assert_eq!(text_of_contours(2, &[K], &[K]), "refused 13\n");
        assert_eq!(contours(&[0; 3], alone, |_| vec![]), b"refused 13\n");
        assert_eq!(contours(&[0; 4], alone, |_| vec![]), b"refused 13\n");
    }

    fn text_of_place(place: Point, left: &[[Point; 3]], right: &[[Point; 3]]) -> String {
        let bytes = [numbers(&[place.0, place.1]), file(left), file(right)].concat();
        String::from_utf8(placed(&bytes)).unwrap()
    }

    #[test]
    fn a_place_is_told_by_triangles() {
        let far = [(10, 10), (12, 10), (10, 12)];
        assert_eq!(text_of_place((0, 0), &[far, K], &[K]), "overlapping\n");
        assert_eq!(text_of_place((1, 1), &[far, K], &[K]), "touching\n");
        assert_eq!(text_of_place((-2, 0), &[far, K], &[K]), "touching\n");
        assert_eq!(text_of_place((-2, -1), &[far, K], &[K]), "apart\n");
        assert_eq!(text_of_place((10, 10), &[K], &[K, far]), "apart\n");
        assert_eq!(text_of_place((-10, -9), &[K], &[K, far]), "overlapping\n");
    }

    #[test]
    fn a_place_is_refused_by_13_2_the_files_10_and_20() {
        let far = [(0, 0), (EDGE, 0), (0, 2)];
        let left = [(-1, 0), (0, 0), (0, 2)];
        for place in [(EDGE + 1, 0), (0, -EDGE - 1), (i32::MIN, i32::MAX)] {
            assert_eq!(text_of_place(place, &[[(0, 0); 3]], &[K]), "refused 2\n");
        }
        assert_eq!(
            text_of_place((EDGE, -EDGE), &[[(0, 0); 3]], &[]),
            "refused 6\n"
        );
        assert_eq!(text_of_place((0, 0), &[], &[[(0, 0); 3]]), "refused 6\n");
        assert_eq!(text_of_place((0, 0), &[left], &[far]), "refused 10\n");
        assert_eq!(text_of_place((0, 0), &[far], &[K]), "overlapping\n");
        assert_eq!(text_of_place((0, 0), &[far], &[left]), "refused 10\n");
        assert_eq!(text_of_place((0, 0), &[], &[far]), "refused 20\n");
        assert_eq!(text_of_place((0, 0), &[far], &[]), "refused 20\n");
        for size in 0..8 {
            assert_eq!(placed(&vec![0xff; size]), b"refused 13\n");
        }
        assert_eq!(placed(&[0xff; 8]), b"refused 13\n");
        assert_eq!(placed(&numbers(&[EDGE + 1, 0])), b"refused 2\n");
    }

    #[test]
    fn a_shard_is_a_job() {
        let refused = pairshard(&numbers(&[0, 1, 2, 0, 0, 0]));
        assert_eq!(refused, b"refused 13\n");
        let nothing = [0, 0, 0, 0, 0, 0, 0];
        let job = [&[1][..], &nothing, &nothing].concat();
        let asked = [&[0, 1][..], &job].concat();
        assert_eq!(pairshard(&numbers(&asked)), numbers(&job));
    }
}
