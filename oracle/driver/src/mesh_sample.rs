//! The stored sample of joining: what is asked, of every fault that fits in a record,
//! and what the Rust and the judge answer. The same every time.

use crate::mesh::{rows, size, written, Call};
use crate::sample::{left, numbers, record, words, Case, Sample};
use crate::written::Written;
use inputs::mesh_damage::{damaged, ORDER};
use inputs::meshes::{self, Mesh};
use inputs::rng::Rng;
use inputs::rooms;
use judge::room::Room;
use judge::Fault;

const SEED: u64 = 20_261_117;

/// Good meshes lent every room about their answer's size, and good ones lent enough.
const ROOMED: usize = 12;
const PLAIN: usize = 40;
/// Meshes of each fault alone.
const ALONE: usize = 10;

/// As many triangles, lent starts and lent numbers as a record may have.
const TRIANGLES: usize = 24;
const STARTS: usize = 32;
const NUMBERS: usize = 160;

/// The record of a mesh, two words that say more of it, and the lent places as they
/// are before the call.
pub(crate) fn mesh_record(mesh: &Mesh, more: [u32; 2], lent: Room) -> Vec<u8> {
    let Room { starts, numbers: n } = lent;
    let head = [mesh.len(), starts, n].map(|n| n as u32);
    let before = Written::before(lent);
    let (starts, corners) = (before.starts.slice(), before.corners.slice());
    record(&[
        words(&head),
        words(&more),
        words(&[0, 0]),
        numbers(rows(mesh).as_flattened()),
        words(starts),
        numbers(corners),
    ])
}

fn case(call: &Call) -> Case {
    Case {
        record: mesh_record(&call.mesh, [0, 0], call.lent),
        line: format!(": {}", left(written(call))),
    }
}

fn fits(call: &Call) -> bool {
    let Room { starts, numbers } = call.lent;
    call.mesh.len() <= TRIANGLES && starts <= STARTS && numbers <= NUMBERS
}

/// The first call drawn that fits in a record.
fn fitting(rng: &mut Rng, draw: impl Fn(&mut Rng) -> Call) -> Call {
    loop {
        let call = draw(rng);
        if fits(&call) {
            return call;
        }
    }
}

/// A good mesh with room for all its parts, exact or longer.
fn accepted(rng: &mut Rng) -> Call {
    let mesh = meshes::good(rng, 4 * TRIANGLES);
    let enough = rooms::every(size(&mesh));
    let lent = rng.pick(&[enough[4], enough[5], enough[7], enough[8]]);
    Call { mesh, lent }
}

/// A mesh with these faults, and some room.
fn refused(rng: &mut Rng, faults: &[Fault]) -> Call {
    let good = meshes::good(rng, TRIANGLES);
    let lent = rooms::about(rng, size(&good));
    let mesh = damaged(rng, &good, faults);
    Call { mesh, lent }
}

/// Of the faults of a mesh the first, more triangles than there may be, fits in no
/// record.
fn faults() -> &'static [Fault] {
    &ORDER[1..]
}

/// Rooms of every size, enough room, the empty mesh, each fault alone, every two.
fn calls() -> Vec<Call> {
    let mut rng = Rng::new(SEED);
    let mut calls = Vec::new();
    while calls.len() < 9 * ROOMED {
        let Call { mesh, .. } = fitting(&mut rng, accepted);
        if !mesh.is_empty() {
            let lents = rooms::every(size(&mesh)).into_iter();
            calls.extend(lents.map(|lent| with(&mesh, lent)));
        }
    }
    calls.extend((0..PLAIN).map(|_| fitting(&mut rng, accepted)));
    let lent = rooms::every(size(&Mesh::new()))[4];
    calls.push(with(&Mesh::new(), lent));
    for (i, &first) in faults().iter().enumerate() {
        calls.extend((0..ALONE).map(|_| fitting(&mut rng, |rng| refused(rng, &[first]))));
        let later = faults()[i + 1..].iter();
        calls.extend(later.map(|&second| fitting(&mut rng, |rng| refused(rng, &[first, second]))));
    }
    calls
}

fn with(mesh: &Mesh, lent: Room) -> Call {
    Call {
        mesh: mesh.clone(),
        lent,
    }
}

pub fn sample() -> Sample {
    Sample::of(&calls().iter().map(case).collect::<Vec<Case>>())
}

#[cfg(test)]
mod tests {
    use super::*;
    use crate::sample::{taken_apart, told};

    #[test]
    fn the_sample_has_every_fault_and_every_room() {
        let sample = sample();
        let (_, lines) = taken_apart(&sample, 1_296);
        assert_eq!(lines.len(), 224);
        assert_eq!(told(&lines, 0), 4 * ROOMED + PLAIN + 1);
        assert_eq!(told(&lines, 22), 3 * ROOMED);
        assert_eq!(told(&lines, 21), 2 * ROOMED);
        for (later, &fault) in faults().iter().rev().enumerate() {
            assert_eq!(told(&lines, fault), ALONE + later);
        }
    }

    #[test]
    fn refused_calls_leave_the_lent_places_as_they_were() {
        let calls = calls();
        let refused = calls.iter().filter(|call| written(call).counts.fault != 0);
        for call in refused {
            let before = left(Written::before(call.lent));
            let (_, lent) = before.split_once(';').expect("lent places");
            assert!(case(call).line.ends_with(lent));
        }
    }

    #[test]
    fn accepted_meshes_are_of_every_kind() {
        let calls = calls();
        let some = |of: &dyn Fn(&Call, [usize; 2]) -> bool| {
            let accepted = calls.iter().filter(|call| {
                let counts = written(call).counts;
                let sizes = [counts.parts, counts.corners].map(|n| n as usize);
                counts.fault == 0 && of(call, sizes)
            });
            accepted.count()
        };
        let all = |call: &Call| call.mesh.len();
        let linked = |call: &Call| rows(&call.mesh).iter().any(|row| row[6..] != [-1; 3]);
        // the empty one, the longest, all in one part, in as many parts as triangles
        assert!(some(&|call, _| all(call) == 0) > 0);
        assert!(some(&|call, _| all(call) > 20) > 0);
        assert!(some(&|call, [parts, _]| parts == 1 && all(call) > 4) > 0);
        assert!(some(&|call, [parts, _]| parts == all(call) && parts > 2) > 0);
        assert!(some(&|call, [parts, _]| linked(call) && 1 < parts && parts < all(call)) > 20);
        // corners dropped where the turn is 0
        assert!(some(&|call, [parts, corners]| corners < all(call) + 2 * parts) > 5);
        // a corner at the end of the range
        let end = |call: &Call| written(call).corners.slice().contains(&((1 << 30) - 1));
        assert!(some(&|call, _| end(call)) > 0);
        // triangles that lie over each other
        let over = |call: &Call| {
            let rows = rows(&call.mesh);
            (1..rows.len()).any(|i| rows[..i].iter().any(|row| row[..6] == rows[i][..6]))
        };
        assert!(some(&|call, _| over(call)) > 0);
    }
}
