//! The stored sample of splitting: what is asked, and what the Rust and the judge
//! answer. The same every time.

use crate::mesh_sample::mesh_record;
use crate::sample::{left, Case, Sample};
use crate::split::{written, Asked, Call};
use inputs::mesh_damage::{damaged, ORDER};
use inputs::meshes::{self, Mesh};
use inputs::rng::Rng;
use inputs::{contours, rooms};
use judge::{Fault, Point};

const SEED: u64 = 20_261_118;

/// Good meshes lent every room about their answer's size; random ones lent enough;
/// meshes of each fault alone.
const ROOMED: usize = 2;
const RANDOM: usize = 24;
const ALONE: usize = 2;

/// As many triangles as a record may have, and the one of fault 1 has; as many lent
/// starts and numbers.
const TRIANGLES: usize = 24;
const TOO_MANY: usize = judge::limits::TRIANGLES + 1;
const STARTS: usize = 64;
const NUMBERS: usize = 320;

/// The calls, in the order of the records.
fn calls() -> Vec<Call> {
    let mut rng = Rng::new(SEED);
    let mut out = on_the_desk();
    out.extend(worth_splitting());
    for _ in 0..ROOMED {
        let asked = any(&mut rng);
        let lents = rooms::every(asked.size()).into_iter();
        out.extend(lents.map(|lent| Call {
            asked: asked.clone(),
            lent,
        }));
    }
    out.extend((0..RANDOM).map(|_| any(&mut rng).in_exact_room()));
    for fault in ORDER {
        out.extend((0..alone(fault)).map(|_| refused(&mut rng, fault)));
    }
    for split in [3, u32::MAX] {
        let mut call = any(&mut rng).in_exact_room();
        call.asked.split = split;
        out.push(call);
    }
    out
}

/// How many meshes of this fault alone: 1 makes any mesh a large one.
fn alone(fault: Fault) -> usize {
    if fault == 1 {
        1
    } else {
        ALONE
    }
}

/// Document 01's examples: the square by each split, the unit square by centroid, the
/// dart, and the empty mesh.
fn on_the_desk() -> Vec<Call> {
    let square = |side: i32| -> Mesh {
        let [a, b, c, d] = [(0, 0), (side, 0), (side, side), (0, side)];
        meshes::linked(&[[a, b, c], [a, c, d]])
    };
    let dart: [[Point; 3]; 2] = [[(0, 0), (4, 0), (0, 4)], [(4, 0), (10, -2), (0, 4)]];
    let asked = |mesh: Mesh, limit: u32, split: u32| Asked { mesh, limit, split }.in_exact_room();
    let mut out: Vec<Call> = (0..3).map(|split| asked(square(4), 3, split)).collect();
    out.push(asked(square(1), 3, 2));
    out.push(asked(square(4), 4, 2));
    out.push(asked(meshes::linked(&dart), 0, 0));
    out.push(asked(Mesh::new(), 3, 0));
    out
}

/// Halves, centres on an edge, groups that end early and the area's limit, from each
/// corner: by centroid past 3 or 4, and by the others from the first.
fn worth_splitting() -> Vec<Call> {
    let mut out = Vec::new();
    for (i, contour) in contours::worth_splitting().iter().enumerate() {
        let mesh = meshes::region(contour);
        let limit = if contour.len() > 4 {
            3 + i as u32 % 2
        } else {
            3
        };
        out.push((mesh.clone(), limit, 2));
        if i % 5 == 0 {
            out.extend([(mesh.clone(), 3, 0), (mesh, 3, 1)]);
        }
    }
    out.into_iter()
        .map(|(mesh, limit, split)| Asked { mesh, limit, split }.in_exact_room())
        .collect()
}

/// A good mesh, a limit and a split that fit in a record.
fn any(rng: &mut Rng) -> Asked {
    loop {
        let asked = Asked {
            mesh: meshes::good(rng, 4 * TRIANGLES),
            limit: rng.below(7) as u32,
            split: rng.below(3) as u32,
        };
        let size = asked.size();
        let (starts, numbers) = (size.starts() + 3, size.numbers() + 3);
        if asked.mesh.len() <= TRIANGLES && starts <= STARTS && numbers <= NUMBERS {
            return asked;
        }
    }
}

/// A mesh with this fault, and room.
fn refused(rng: &mut Rng, fault: Fault) -> Call {
    loop {
        let mut call = any(rng).in_exact_room();
        call.asked.mesh = damaged(rng, &call.asked.mesh, &[fault]);
        let triangles = call.asked.mesh.len();
        if triangles <= TRIANGLES || triangles == TOO_MANY {
            return call;
        }
    }
}

fn case(call: &Call) -> Case {
    let Asked { mesh, limit, split } = &call.asked;
    Case {
        record: mesh_record(mesh, [*limit, *split], call.lent),
        line: format!(", limit {limit}, split {split}: {}", left(written(call))),
    }
}

pub fn sample() -> Sample {
    Sample::of(&calls().iter().map(case).collect::<Vec<Case>>())
}

#[cfg(test)]
mod tests {
    use super::*;
    use crate::sample::{taken_apart, told};

    #[test]
    fn the_sample_has_every_fault_and_document_01s_examples() {
        let sample = sample();
        let (_, lines) = taken_apart(&sample, 36_992);
        assert_eq!(lines.len(), 134);
        for fault in ORDER {
            assert_eq!(told(&lines, fault), alone(fault));
        }
        assert_eq!(told(&lines, 13), 2);
        assert_eq!(told(&lines, 22), 3 * ROOMED);
        assert_eq!(told(&lines, 21), 2 * ROOMED);
        assert!(told(&lines, 0) > 100);
        let two = "fault 0, parts 2, corners 6; starts 0 3 6; corners";
        let desk = [
            format!("split 0: {two} 0 4 0 0 4 0 4 0 4 4 0 4"),
            format!("split 1: {two} 0 4 0 0 4 0 0 4 4 0 4 4"),
            "split 2: fault 0, parts 4, corners 12; starts 0 3 6 9 12; corners \
             2 2 0 4 0 0 2 2 0 0 4 0 2 2 4 0 4 4 2 2 4 4 0 4"
                .into(),
            format!("split 2: {two} 0 1 0 0 1 0 0 1 1 0 1 1"),
        ];
        for (k, line) in desk.iter().enumerate() {
            assert_eq!(lines[k], format!("case {k}, limit 3, {line}"));
        }
    }
}
