//! The two entry points of the mesh: its first fault, and its convex parts written
//! to lent starts and corners. Refusals are the judge's, parts the Rust's.

use crate::entry::{simpler_numbers, EntryPoint};
use crate::lent::{Handed, Kept, Lent};
use crate::told::Counts;
use crate::written::Written;
use cli::answers::{parts, Cut};
use inputs::mesh_damage::{damaged, ORDER};
use inputs::meshes::{self, Mesh};
use inputs::rng::Rng;
use inputs::{rooms, text};
use judge::limits::{NONE, TRIANGLES};
use judge::mesh::Triangle;
use judge::room::{Room, Size};
use judge::{Fault, Point};
use std::collections::BTreeSet;
use std::iter;

/// A triangle as it is lent: x and y of the three points, and three neighbours,
/// none being −1.
pub type Row = [i32; 9];

pub fn rows(mesh: &[Triangle]) -> Vec<Row> {
    mesh.iter()
        .map(|t| {
            let [a, b, c] = t.points;
            let [i, j, k] = t.neighbours.map(|n| n as i32);
            [a.0, a.1, b.0, b.1, c.0, c.1, i, j, k]
        })
        .collect()
}

/// One random mesh in so many of those that an entry point of numbers takes.
pub(crate) const SHARE: u64 = 5;

/// Each is given the Rattle function that it asks.
pub fn mesh_fault_beside<F>(rattle: F) -> MeshFault<F>
where
    F: Fn(Handed<Row>) -> u32,
{
    MeshFault { rattle }
}

pub fn to_convex_polygons_beside<F>(rattle: F) -> ToConvexPolygons<F>
where
    F: Fn(Handed<Row>, Handed<u32>, Handed<i32>) -> Counts,
{
    let name = "to_convex_polygons";
    ToConvexPolygons { name, rattle }
}

// ---- inputs

/// Every mesh of one triangle on a grid of 2 by 2, and of two that have an area,
/// with neighbours none, in the mesh or one past it; the limits of number and area, and
/// of the sizes that work arrays come in.
pub(crate) fn fixed() -> impl Iterator<Item = Mesh> {
    let one = |n| meshes::small_at(1, 2, n);
    let limits = [TRIANGLES - 1, TRIANGLES, TRIANGLES + 1].map(meshes::apart);
    // each size of the work arrays and one triangle more: many regions, and one
    let sizes = [16, 17, 128, 129, 512, 513];
    let regions = sizes.map(|count| meshes::region(&meshes::parabola(count + 2)));
    let mut rng = Rng::new(0);
    let areas = [false, true].map(|one_more| meshes::area_limit(&mut rng, one_more));
    iter::once(Mesh::new())
        .chain((0..meshes::small_count(1, 2)).map(one))
        .chain(meshes::two_with_area())
        .chain(limits)
        .chain(sizes.map(meshes::apart))
        .chain(regions)
        .chain(areas)
}

/// A good mesh, mostly of few triangles, and the faults to put in: none, one or two.
pub(crate) fn any(rng: &mut Rng) -> (Mesh, Vec<Fault>) {
    let good = match rng.below(1_000) {
        0..=9 => meshes::large(rng),
        10..=39 => meshes::good(rng, TRIANGLES),
        40..=199 => meshes::good(rng, 100),
        _ => meshes::good(rng, 20),
    };
    let faults = match rng.below(9) {
        0 | 1 => vec![rng.pick(&ORDER)],
        // 1 seldom, since it makes any mesh a large one
        2 => vec![rng.pick(&ORDER[1..]), rng.pick(&ORDER)],
        _ => Vec::new(),
    };
    (good, faults)
}

// ---- the fault alone

pub struct MeshFault<F> {
    rattle: F,
}

impl<F: Fn(Handed<Row>) -> u32> EntryPoint for MeshFault<F> {
    type Input = Mesh;
    type Answer = Kept<u32>;

    fn name(&self) -> &'static str {
        "mesh_fault"
    }

    fn faults(&self) -> &'static [u32] {
        &ORDER
    }

    fn inputs<'a>(&self, rng: &'a mut Rng, count: u64) -> Box<dyn Iterator<Item = Mesh> + 'a> {
        let random = (0..count / SHARE).map(move |_| {
            let (good, faults) = any(rng);
            damaged(rng, &good, &faults)
        });
        Box::new(fixed().chain(random))
    }

    fn rattle(&self, mesh: &Mesh) -> Kept<u32> {
        let rows = rows(mesh);
        let mut lent = Lent::list(&rows);
        let told = (self.rattle)(lent.handed());
        let kept = lent.holds(&rows);
        Kept { told, kept }
    }

    fn rust(&self, mesh: &Mesh) -> Kept<u32> {
        Kept::all(judge::mesh::fault(mesh))
    }

    fn fault(&self, answer: &Kept<u32>) -> u32 {
        answer.told
    }

    fn simpler(&self, mesh: &Mesh) -> Vec<Mesh> {
        simpler(mesh)
    }

    fn show(&self, mesh: &Mesh) -> String {
        text::mesh(mesh)
    }
}

// ---- the parts

/// A mesh, and the room that is lent for its parts.
#[derive(Debug, Clone)]
pub struct Call {
    pub mesh: Mesh,
    pub lent: Room,
}

/// What document 01 and the Rust say of a call.
pub fn written(call: &Call) -> Written {
    Written::after(call.lent, parts(&call.mesh, Cut::None))
}

/// The size of a mesh's parts; none where it is refused.
pub fn size(mesh: &Mesh) -> Size {
    Size::of(&parts(mesh, Cut::None).unwrap_or_default())
}

pub struct ToConvexPolygons<F> {
    /// What it is called: rows and structs are asked alike.
    pub name: &'static str,
    rattle: F,
}

impl<F> EntryPoint for ToConvexPolygons<F>
where
    F: Fn(Handed<Row>, Handed<u32>, Handed<i32>) -> Counts,
{
    type Input = Call;
    type Answer = Kept<Written>;

    fn name(&self) -> &'static str {
        self.name
    }

    fn faults(&self) -> &'static [u32] {
        &[1, 2, 3, 4, 5, 6, 11, 22, 21]
    }

    /// The fixed meshes that are accepted with every room about their answer's
    /// size, the others with room for any; then random ones with some room.
    fn inputs<'a>(&self, rng: &'a mut Rng, count: u64) -> Box<dyn Iterator<Item = Call> + 'a> {
        let fixed = fixed().flat_map(|mesh| {
            let lents = match judge::mesh::fault(&mesh) {
                0 => rooms::every(size(&mesh)),
                _ => vec![Room {
                    starts: mesh.len() + 1,
                    numbers: 6 * mesh.len(),
                }],
            };
            lents.into_iter().map(move |lent| Call {
                mesh: mesh.clone(),
                lent,
            })
        });
        let random = (0..count / SHARE).map(move |_| {
            let (good, faults) = any(rng);
            let lent = rooms::about(rng, size(&good));
            let mesh = damaged(rng, &good, &faults);
            Call { mesh, lent }
        });
        Box::new(fixed.chain(random))
    }

    fn rattle(&self, call: &Call) -> Kept<Written> {
        let rows = rows(&call.mesh);
        let mut lent = Lent::list(&rows);
        let mut told = Written::before(call.lent);
        let (starts, corners) = (told.starts.handed(), told.corners.handed());
        told.counts = (self.rattle)(lent.handed(), starts, corners);
        let kept = lent.holds(&rows);
        Kept { told, kept }
    }

    fn rust(&self, call: &Call) -> Kept<Written> {
        Kept::all(written(call))
    }

    fn fault(&self, answer: &Kept<Written>) -> u32 {
        answer.told.counts.fault
    }

    fn simpler(&self, call: &Call) -> Vec<Call> {
        let lent = call.lent;
        let meshes = simpler(&call.mesh).into_iter();
        let mut out: Vec<Call> = meshes.map(|mesh| Call { mesh, lent }).collect();
        out.extend(rooms::less(call.lent).into_iter().map(|lent| Call {
            mesh: call.mesh.clone(),
            lent,
        }));
        out
    }

    fn show(&self, call: &Call) -> String {
        let Room { starts, numbers } = call.lent;
        format!("{} room {starts} {numbers}", text::mesh(&call.mesh))
    }
}

// ---- simpler meshes

/// How many triangles a mesh has at the most where more is tried than to leave some
/// out.
const FEW: usize = 12;

/// The mesh with triangles left out, a link undone, or a coordinate nearer to zero
/// wherever it stands.
pub(crate) fn simpler(mesh: &Mesh) -> Vec<Mesh> {
    let mut out = Vec::new();
    let halves = iter::successors(Some(mesh.len()), |n| Some(n / 2));
    for size in halves.take_while(|&n| n > 0) {
        let firsts = (0..mesh.len()).step_by(size);
        out.extend(firsts.map(|first| without(mesh, first, size)));
    }
    if mesh.len() <= FEW {
        out.extend(unlinked(mesh));
        out.extend(nearer(mesh));
    }
    out
}

/// The mesh without so many triangles, those after them moved up.
fn without(mesh: &Mesh, first: usize, size: usize) -> Mesh {
    let end = (first + size).min(mesh.len());
    let moved = |n: u32| match n as usize {
        at if n == NONE || at < first => n,
        at if at < end => NONE,
        _ => n - (end - first) as u32,
    };
    let kept = mesh[..first].iter().chain(&mesh[end..]);
    kept.map(|t| Triangle {
        points: t.points,
        neighbours: t.neighbours.map(moved),
    })
    .collect()
}

/// The mesh with one neighbour less, and with what names back left out too.
fn unlinked(mesh: &Mesh) -> Vec<Mesh> {
    let mut out = Vec::new();
    for (i, t) in mesh.iter().enumerate() {
        for k in (0..3).filter(|&k| t.neighbours[k] != NONE) {
            let mut one_way = mesh.clone();
            one_way[i].neighbours[k] = NONE;
            let mut both_ways = one_way.clone();
            if let Some(other) = both_ways.get_mut(t.neighbours[k] as usize) {
                for n in other.neighbours.iter_mut().filter(|n| **n == i as u32) {
                    *n = NONE;
                }
            }
            out.extend([both_ways, one_way]);
        }
    }
    out
}

/// The mesh with all its points of one x, or of one y, at a simpler one.
fn nearer(mesh: &Mesh) -> Vec<Mesh> {
    let moved = |at: &dyn Fn(Point) -> Point| -> Mesh {
        let triangle = |t: &Triangle| Triangle {
            points: t.points.map(at),
            neighbours: t.neighbours,
        };
        mesh.iter().map(triangle).collect()
    };
    let points = || mesh.iter().flat_map(|t| t.points);
    let xs: BTreeSet<i32> = points().map(|p| p.0).collect();
    let ys: BTreeSet<i32> = points().map(|p| p.1).collect();
    let mut out = Vec::new();
    for x in xs {
        let to = |to: i32| moved(&|p| if p.0 == x { (to, p.1) } else { p });
        out.extend(simpler_numbers(x).into_iter().map(to));
    }
    for y in ys {
        let to = |to: i32| moved(&|p| if p.1 == y { (p.0, to) } else { p });
        out.extend(simpler_numbers(y).into_iter().map(to));
    }
    out
}

/// The driver itself, tried on functions of known worth: right ones pass, and
/// each deliberate fault is caught and made small.
#[cfg(test)]
mod tests {
    use super::*;
    use crate::entry::{run, Report};
    use crate::lent::overruns::{self, plant, seen};
    use judge::mesh::area_two;

    const COUNT: u64 = 10_000;

    fn mesh_of(rows: &[Row]) -> Mesh {
        rows.iter()
            .map(|r| Triangle {
                points: [(r[0], r[1]), (r[2], r[3]), (r[4], r[5])],
                neighbours: [r[6], r[7], r[8]].map(|n| n as u32),
            })
            .collect()
    }

    fn right_fault(rows: &[Row]) -> u32 {
        judge::mesh::fault(&mesh_of(rows))
    }

    fn answer(mesh: Mesh, starts: &mut [u32], corners: &mut [i32]) -> Counts {
        let lent = Room {
            starts: starts.len(),
            numbers: corners.len(),
        };
        written(&Call { mesh, lent }).copied(starts, corners)
    }

    type WritesParts = fn(&[Row], &mut [u32], &mut [i32]) -> Counts;

    /// A function on slices as the entry points ask it. Safe: the memory is lent.
    fn asked(f: WritesParts) -> impl Fn(Handed<Row>, Handed<u32>, Handed<i32>) -> Counts {
        move |rows, starts, corners| unsafe { f(rows.slice(), starts.slice(), corners.slice()) }
    }

    fn asked_fault(f: fn(&[Row]) -> u32) -> impl Fn(Handed<Row>) -> u32 {
        move |rows| unsafe { f(rows.slice()) }
    }

    fn right(rows: &[Row], starts: &mut [u32], corners: &mut [i32]) -> Counts {
        answer(mesh_of(rows), starts, corners)
    }

    #[test]
    fn right_functions_pass() {
        let faults = run(&mesh_fault_beside(asked_fault(right_fault)), 1, COUNT);
        let parts = run(&to_convex_polygons_beside(asked(right)), 1, COUNT);
        for report in [&faults, &parts] {
            assert!(report.passed(), "{report}");
            assert!(report.faults.values().all(|&times| times > 50), "{report}");
        }
        let fixed = 1 + 64 * 27 + 768 * 768 + 3 + 6 + 6 + 2;
        assert_eq!(faults.compared, fixed + COUNT / SHARE);
    }

    #[test]
    fn overruns_are_caught() {
        for at in overruns::ALL {
            let entry = mesh_fault_beside(move |rows| {
                let told = asked_fault(right_fault)(rows);
                plant(rows, at);
                told
            });
            seen(&entry, at);
            let entry = to_convex_polygons_beside(move |rows, starts, corners| {
                let told = asked(right)(rows, starts, corners);
                plant(rows, at);
                told
            });
            seen(&entry, at);
        }
        for at in overruns::ENDS {
            let entry = to_convex_polygons_beside(move |rows, starts, corners| {
                let told = asked(right)(rows, starts, corners);
                plant(starts, at);
                told
            });
            seen(&entry, at);
            let entry = to_convex_polygons_beside(move |rows, starts, corners| {
                let told = asked(right)(rows, starts, corners);
                plant(corners, at);
                told
            });
            seen(&entry, at);
        }
    }

    fn caught(report: &Report) -> &str {
        assert!(report.differ > 0 && !report.passed());
        report.smallest.as_ref().expect("a difference is shown")
    }

    fn caught_faults(wrong: fn(&[Row]) -> u32) -> String {
        caught(&run(&mesh_fault_beside(asked_fault(wrong)), 1, COUNT)).into()
    }

    fn caught_parts(wrong: WritesParts) -> String {
        caught(&run(&to_convex_polygons_beside(asked(wrong)), 1, COUNT)).into()
    }

    #[test]
    fn one_triangle_too_few_is_caught() {
        let small = caught_faults(|rows| match rows.len() {
            TRIANGLES => 1,
            _ => right_fault(rows),
        });
        assert!(
            small.ends_with("and 904 more]: Rust 0, Rattle 1"),
            "{small}"
        );
    }

    #[test]
    fn an_area_of_zero_accepted_is_caught() {
        let small = caught_faults(|rows| {
            let mut mesh = mesh_of(rows);
            mesh.retain(|t| area_two(t.points) != 0);
            match right_fault(rows) {
                6 if mesh.iter().all(|t| area_two(t.points) > 0) => 0,
                fault => fault,
            }
        });
        assert_eq!(
            small,
            "[(0,0) (0,0) (0,0) none none none]: Rust 6, Rattle 0"
        );
    }

    /// The first part from its second corner on.
    fn turned(rows: &[Row], starts: &mut [u32], corners: &mut [i32]) -> Counts {
        let counts = right(rows, starts, corners);
        if counts.parts > 0 {
            corners[..2 * starts[1] as usize].rotate_left(2);
        }
        counts
    }

    #[test]
    fn a_part_from_another_corner_is_caught() {
        let small = caught_parts(turned);
        assert!(
            small.starts_with("[(1,0) (0,1) (0,0) none none none] room 2 6: "),
            "{small}"
        );
    }

    /// No triangle joins where a corner would lie in line.
    fn too_strict(rows: &[Row], starts: &mut [u32], corners: &mut [i32]) -> Counts {
        let mut mesh = mesh_of(rows);
        let size = size(&mesh);
        if size.parts > 0 && size.corners < mesh.len() + 2 * size.parts {
            for t in &mut mesh {
                t.neighbours = [NONE; 3];
            }
        }
        answer(mesh, starts, corners)
    }

    #[test]
    fn a_join_refused_at_a_straight_corner_is_caught() {
        let small = caught_parts(too_strict);
        let two = "[(1,0) (1,1) (0,0) none none 1; (1,0) (2,0) (1,1) none 0 none] room 2 0: ";
        assert!(small.starts_with(two), "{small}");
    }

    /// The start after the last is cleared.
    fn past_the_answer(rows: &[Row], starts: &mut [u32], corners: &mut [i32]) -> Counts {
        let counts = right(rows, starts, corners);
        match starts.get_mut(counts.parts as usize + 1) {
            Some(start) if counts.fault == 0 => *start = 0,
            _ => {}
        }
        counts
    }

    #[test]
    fn memory_changed_past_the_answer_is_caught() {
        let small = caught_parts(past_the_answer);
        assert!(small.starts_with("[] room 2 0: "), "{small}");
    }

    /// Starts are written before the room for corners is looked at.
    fn starts_first(rows: &[Row], starts: &mut [u32], corners: &mut [i32]) -> Counts {
        let counts = right(rows, starts, corners);
        if counts.fault == 21 {
            starts[0] = 0;
        }
        counts
    }

    #[test]
    fn a_refusal_that_wrote_is_caught() {
        let small = caught_parts(starts_first);
        assert!(
            small.starts_with("[(1,0) (0,1) (0,0) none none none] room 2 0: "),
            "{small}"
        );
    }

    /// 21 before 22.
    fn corners_first(rows: &[Row], starts: &mut [u32], corners: &mut [i32]) -> Counts {
        let mut counts = right(rows, starts, corners);
        if counts.fault == 22 && corners.len() < size(&mesh_of(rows)).numbers() {
            counts.fault = 21;
        }
        counts
    }

    #[test]
    fn room_looked_at_in_another_order_is_caught() {
        let small = caught_parts(corners_first);
        assert!(
            small.starts_with("[(1,0) (0,1) (0,0) none none none] room 0 0: "),
            "{small}"
        );
    }
}
