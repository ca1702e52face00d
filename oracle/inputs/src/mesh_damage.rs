//! Copies of a good mesh with one fault, or with two. Each damage adds no fault
//! that document 01 tries before its own, so that two together give the first.

use crate::coordinates::{self, EDGE};
use crate::meshes::Mesh;
use crate::rng::Rng;
use judge::limits::{NONE, TRIANGLES};
use judge::mesh::Triangle;
use judge::Fault;

/// The faults of a mesh, in the order in which they are tried.
pub const ORDER: [Fault; 7] = [1, 2, 3, 4, 5, 6, 11];

/// The mesh with these faults. Later kinds are put in first, since what is
/// appended for them would change what "past the mesh" means.
pub fn damaged(rng: &mut Rng, mesh: &Mesh, faults: &[Fault]) -> Mesh {
    let mut out = mesh.clone();
    for fault in ORDER.iter().rev().filter(|f| faults.contains(f)) {
        match fault {
            1 => too_many(rng, &mut out),
            2 => out_of_range(rng, &mut out),
            3 => not_there(rng, &mut out),
            4 => not_named_back(rng, &mut out),
            5 => edge_apart(rng, &mut out),
            6 => no_area(rng, &mut out),
            _ => too_large(rng, &mut out),
        }
    }
    out
}

fn alone(points: [(i32, i32); 3]) -> Triangle {
    Triangle {
        points,
        neighbours: [NONE; 3],
    }
}

/// Some triangle of the mesh, one being appended where there is none.
fn some(rng: &mut Rng, mesh: &mut Mesh) -> usize {
    if mesh.is_empty() {
        mesh.push(alone([(0, 0), (1, 0), (0, 1)]));
    }
    rng.below(mesh.len())
}

fn too_many(rng: &mut Rng, mesh: &mut Mesh) {
    let past = rng.below(3);
    while mesh.len() <= TRIANGLES + past {
        mesh.push(alone([(0, 0), (1, 0), (0, 1)]));
    }
}

fn out_of_range(rng: &mut Rng, mesh: &mut Mesh) {
    let i = some(rng, mesh);
    let point = &mut mesh[i].points[rng.below(3)];
    let value = coordinates::beyond(rng);
    if rng.once_in(2) {
        point.0 = value;
    } else {
        point.1 = value;
    }
}

fn not_there(rng: &mut Rng, mesh: &mut Mesh) {
    let i = some(rng, mesh);
    let past = mesh.len() as u32;
    mesh[i].neighbours[rng.below(3)] = rng.pick(&[past, past + 1, NONE - 1, i as u32]);
}

/// A neighbour that does not name back, one that is named twice, or one that
/// names back twice.
fn not_named_back(rng: &mut Rng, mesh: &mut Mesh) {
    let i = some(rng, mesh);
    let named: Vec<usize> = (0..3).filter(|&k| mesh[i].neighbours[k] != NONE).collect();
    if named.is_empty() {
        let base = mesh.len() as u32;
        let mut first = alone([(0, 0), (1, 0), (0, 1)]);
        let mut second = alone([(1, 0), (1, 1), (0, 1)]);
        first.neighbours[0] = base + 1;
        if rng.once_in(2) {
            first.neighbours[1] = base + 1;
            second.neighbours[1] = base;
        }
        mesh.extend([first, second]);
        return;
    }
    let k = rng.pick(&named);
    if rng.once_in(2) {
        mesh[i].neighbours[k] = NONE;
    } else {
        mesh[i].neighbours[(k + 1) % 3] = mesh[i].neighbours[k];
    }
}

/// A shared edge with an end moved, or two triangles joined across edges that
/// differ or run the same way.
fn edge_apart(rng: &mut Rng, mesh: &mut Mesh) {
    let base = mesh.len() as u32;
    let mut first = alone([(0, 0), (1, 0), (0, 1)]);
    let mut second = match rng.below(3) {
        0 => alone([(2, 0), (2, 1), (0, 1)]),
        1 => alone([(5, 5), (1, 0), (0, 1)]),
        _ => alone([(0, 0), (1, 0), (0, 1)]),
    };
    first.neighbours[0] = base + 1;
    second.neighbours[if second.points[0] == (2, 0) { 1 } else { 0 }] = base;
    let i = some(rng, mesh);
    match (0..3).find(|&k| mesh[i].neighbours[k] != NONE) {
        Some(k) if rng.once_in(2) => {
            let end = &mut mesh[i].points[(k + 1) % 3];
            end.0 += if end.0 > 0 { -1 } else { 1 };
        }
        _ => {
            let shift = mesh.len() as u32 - base;
            for t in [&mut first, &mut second] {
                for n in t.neighbours.iter_mut().filter(|n| **n != NONE) {
                    *n += shift;
                }
            }
            mesh.extend([first, second]);
        }
    }
}

fn no_area(rng: &mut Rng, mesh: &mut Mesh) {
    mesh.push(match rng.below(3) {
        0 => alone([(0, 0), (0, 1), (1, 0)]),
        1 => alone([(0, 0), (1, 1), (2, 2)]),
        _ => alone([(7, 7); 3]),
    });
}

/// Three triangles of half the range each, or more.
fn too_large(rng: &mut Rng, mesh: &mut Mesh) {
    for _ in 0..3 + rng.below(2) {
        mesh.push(alone([(-EDGE, -EDGE), (EDGE, -EDGE), (EDGE, EDGE)]));
    }
}

#[cfg(test)]
mod tests {
    use super::*;
    use crate::first_of;
    use crate::meshes;
    use judge::mesh::fault;

    #[test]
    fn each_fault_alone_and_every_two_together() {
        let mut rng = Rng::new(21);
        for _ in 0..150 {
            let mesh = meshes::good(&mut rng, 60);
            for a in ORDER {
                let one = damaged(&mut rng, &mesh, &[a]);
                assert_eq!(fault(&one), a, "{one:?}");
                for b in ORDER {
                    let both = damaged(&mut rng, &mesh, &[a, b]);
                    assert_eq!(
                        fault(&both),
                        first_of(&ORDER, &[a, b]),
                        "{a} and {b}: {both:?}"
                    );
                }
            }
        }
    }
}
