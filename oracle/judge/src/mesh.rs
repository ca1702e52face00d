//! The mesh's faults: 1, 2, 3, 4, 5, 6, 11. (22 and 21 are in `room`.)

use crate::limits::{point_in_range, NONE, TRIANGLES};
use crate::{first, Fault, Point};

/// A record: three points, and three neighbours of which neighbour i lies across
/// from vertex i.
#[derive(Debug, Clone, PartialEq, Eq)]
pub struct Triangle {
    pub points: [Point; 3],
    pub neighbours: [u32; 3],
}

/// The mesh's first fault.
pub fn fault(mesh: &[Triangle]) -> Fault {
    first(&[
        (1, &|| mesh.len() > TRIANGLES),
        (2, &|| {
            mesh.iter()
                .any(|t| !t.points.iter().all(|&p| point_in_range(p)))
        }),
        (3, &|| names_what_is_not_there(mesh)),
        (4, &|| is_not_named_back_once(mesh)),
        (5, &|| shares_no_edge(mesh)),
        (6, &|| mesh.iter().any(|t| area_two(t.points) <= 0)),
        (11, &|| total_area_two(mesh) > i128::from(i64::MAX)),
    ])
}

/// The doubled areas of the mesh, added up.
pub fn total_area_two(mesh: &[Triangle]) -> i128 {
    mesh.iter().map(|t| area_two(t.points)).sum()
}

/// The doubled signed area of a triangle.
pub fn area_two([a, b, c]: [Point; 3]) -> i128 {
    let wide = |v: i32| i128::from(v);
    (wide(b.0) - wide(a.0)) * (wide(c.1) - wide(a.1))
        - (wide(b.1) - wide(a.1)) * (wide(c.0) - wide(a.0))
}

/// Each neighbour that is not none: the triangle, the vertex it lies across from,
/// and its number.
fn named(mesh: &[Triangle]) -> impl Iterator<Item = (usize, usize, u32)> + '_ {
    mesh.iter().enumerate().flat_map(|(i, t)| {
        let present = (0..3).filter(|&k| t.neighbours[k] != NONE);
        present.map(move |k| (i, k, t.neighbours[k]))
    })
}

/// 3: neither none nor in the mesh, or the triangle itself.
fn names_what_is_not_there(mesh: &[Triangle]) -> bool {
    named(mesh).any(|(i, _, n)| n as usize >= mesh.len() || n as usize == i)
}

/// 4: named twice, or not naming back exactly once.
fn is_not_named_back_once(mesh: &[Triangle]) -> bool {
    let times = |t: &Triangle, n: usize| t.neighbours.iter().filter(|&&m| m as usize == n).count();
    named(mesh).any(|(i, _, n)| {
        let n = n as usize;
        times(&mesh[i], n) != 1 || times(&mesh[n], i) != 1
    })
}

/// 5: a shared edge whose ends differ or do not run oppositely.
fn shares_no_edge(mesh: &[Triangle]) -> bool {
    let edge = |t: &Triangle, k: usize| (t.points[(k + 1) % 3], t.points[(k + 2) % 3]);
    named(mesh).any(|(i, k, n)| {
        let other = &mesh[n as usize];
        (0..3)
            .filter(|&l| other.neighbours[l] as usize == i)
            .any(|l| {
                let (a, b) = edge(&mesh[i], k);
                edge(other, l) != (b, a)
            })
    })
}

#[cfg(test)]
mod tests {
    use super::*;

    pub fn square() -> Vec<Triangle> {
        vec![
            Triangle {
                points: [(0, 0), (4, 0), (4, 4)],
                neighbours: [NONE, 1, NONE],
            },
            Triangle {
                points: [(0, 0), (4, 4), (0, 4)],
                neighbours: [NONE, NONE, 0],
            },
        ]
    }

    #[test]
    fn accepts_the_square_and_the_empty_mesh() {
        assert_eq!(fault(&square()), 0);
        assert_eq!(fault(&[]), 0);
    }

    #[test]
    fn each_fault_by_hand() {
        let with = |change: &dyn Fn(&mut Vec<Triangle>)| {
            let mut mesh = square();
            change(&mut mesh);
            fault(&mesh)
        };
        assert_eq!(with(&|m| m[1].points[2].0 = -(1 << 30)), 2);
        assert_eq!(with(&|m| m[1].points[2].0 = 1 - (1 << 30)), 0);
        assert_eq!(with(&|m| m[0].neighbours[0] = 2), 3);
        assert_eq!(with(&|m| m[0].neighbours[0] = 0), 3);
        assert_eq!(with(&|m| m[0].neighbours[0] = 1), 4);
        assert_eq!(with(&|m| m[0].neighbours[1] = NONE), 4);
        assert_eq!(with(&|m| m[0].neighbours = [1, NONE, NONE]), 5);
        assert_eq!(with(&|m| m[1].points[2] = (4, 4)), 6);
        let far = Triangle {
            points: [
                (-1073741823, -1073741823),
                (1073741823, -1073741823),
                (0, 1073741823),
            ],
            neighbours: [NONE; 3],
        };
        assert_eq!(fault(&[far.clone(), far.clone()]), 0);
        assert_eq!(fault(&[far.clone(), far.clone(), far]), 11);
        let one = Triangle {
            points: [(0, 0), (1, 0), (0, 1)],
            neighbours: [NONE; 3],
        };
        assert_eq!(fault(&vec![one.clone(); 1024]), 0);
        assert_eq!(fault(&vec![one; 1025]), 1);
    }
}
