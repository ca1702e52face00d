//! Joining and splitting, timed: the Rust's `to_convex_polygons` and ours on the same
//! meshes of 1 to 1,024 triangles, and `to_convex_polygons_with_max_vertices` of both on
//! few triangles and on many. A line for each kind of mesh: the call alone, and with the
//! checks that accept the mesh, which the Rust has not; both for one mesh again and
//! again, and for another mesh each time.

use crate::timing::{median, timed};
use driver::boundary::structs_joined;
use driver::boundary::{mesh_fault, to_convex_polygons, to_convex_polygons_with_max_vertices};
use driver::mesh::{rows, Row};
use driver::told::Counts;
use i_triangle::advanced::convex::ConvexSplitStrategy::{self, Centroid, EarClipping, Fan};
use i_triangle::int::expose::{Parts, Prepared, Record};
use inputs::contours;
use inputs::meshes::{self, Mesh};
use inputs::rng::Rng;
use judge::limits::TRIANGLES;
use judge::Point;
use std::hint::black_box;

/// How many meshes there are of a kind, so many that the processor cannot learn
/// their branches, as it does of one mesh that comes again and again.
pub const MESHES: usize = 64;

/// Joining of every kind of mesh: of few triangles, and of as many as there may be.
pub fn joining(rounds: usize) {
    told();
    for &(name, kind, sizes) in SMALL_KINDS {
        for &triangles in sizes {
            let name = format!("{triangles} triangles: {name}");
            print_ratios(kind, triangles, &name, &Joining, rounds);
        }
    }
    let mut whole = Vec::new();
    for &(name, kind) in KINDS {
        whole.extend(print_ratios(kind, TRIANGLES, name, &Joining, rounds));
    }
    whole.sort_by(f64::total_cmp);
    let (middle, greatest) = (whole[whole.len() / 2], whole[whole.len() - 1]);
    println!("1,024 triangles, with the checks: median {middle:4.2}, greatest {greatest:4.2}");
}

/// Joining over triangle structs, which copies them into rows first, over joining over
/// rows: the copy's share. Another mesh each time.
pub fn structs(rounds: usize) {
    println!("joining over structs / over rows");
    for &(name, kind, sizes) in STRUCT_KINDS {
        for &triangles in sizes {
            let mut rng = Rng::new(1);
            let all: Vec<Vec<Row>> = (0..MESHES)
                .map(|_| rows(&kind(&mut rng, triangles)))
                .collect();
            let joined = struct_ratio(&all, rounds);
            println!("{joined:4.2}    {triangles} triangles: {name}");
        }
    }
}

const STRUCT_KINDS: &[(&str, Kind, &[usize])] = &[
    (
        "one region, a polygon cut at random",
        cut_renumbered,
        &[1, 2, 16, 17, 128, 129, 1_024],
    ),
    (
        "many regions, triangles apart",
        apart,
        &[2, 16, 17, 128, 129, 1_024],
    ),
];

fn struct_ratio(all: &[Vec<Row>], rounds: usize) -> f64 {
    let mut starts = vec![0u32; TRIANGLES + 1];
    let mut corners = vec![0i32; 6 * TRIANGLES];
    let times = (TRIANGLES / all[0].len()).min(MESHES);
    let mut taken = [const { Vec::new() }; 2];
    for round in 0..rounds {
        let at = |shift: usize| black_box(&all[(round + shift) % all.len()][..]);
        let mut lent = || {
            let (starts, corners) = (black_box(&mut starts[..]), black_box(&mut corners[..]));
            (starts.into(), corners.into())
        };
        taken[0].push(timed(times, |k| {
            let (starts, corners) = lent();
            to_convex_polygons(at(k).into(), starts, corners)
        }));
        taken[1].push(timed(times, |k| {
            let (starts, corners) = lent();
            structs_joined(at(k + 10).into(), starts, corners)
        }));
    }
    let [rows, structs] = taken.map(median);
    structs / rows
}

/// Each split, past two limits.
pub fn splits(rounds: usize) {
    told();
    for (name, kind) in SPLIT_KINDS {
        for (split, by) in [EarClipping, Fan, Centroid].into_iter().zip(0..) {
            for limit in [3, 8] {
                let call = Splitting { limit, split, by };
                let name = format!("{name}; limit {limit}, {split:?}");
                print_ratios(*kind, TRIANGLES, &name, &call, rounds / 4);
            }
        }
    }
}

fn told() {
    println!("our time over the Rust's: the call alone, with the checks");
    println!("one mesh     another each time");
}

/// Prints a line, and hands back its two numbers with the checks.
fn print_ratios(
    kind: Kind,
    triangles: usize,
    name: &str,
    call: &impl Call,
    rounds: usize,
) -> [f64; 2] {
    let mut rng = Rng::new(1);
    let all: Vec<Timed> = (0..MESHES)
        .map(|_| Timed::of(&kind(&mut rng, triangles)))
        .collect();
    let [one, another] = [&all[..1], &all[..]].map(|some| ratios(some, call, rounds));
    println!("{}    {}    {name}", told_of(one), told_of(another));
    [one[1], another[1]]
}

fn told_of([alone, whole]: [f64; 2]) -> String {
    format!("{alone:4.2} {whole:4.2}")
}

/// A mesh of so many triangles, another each time it is asked for.
pub type Kind = fn(&mut Rng, usize) -> Mesh;

/// The two functions that are timed.
trait Call {
    fn rust(&self, mesh: &Prepared) -> Parts;
    fn ours(&self, mesh: &[Row], starts: &mut [u32], corners: &mut [i32]) -> Counts;
}

struct Joining;

impl Call for Joining {
    fn rust(&self, mesh: &Prepared) -> Parts {
        mesh.parts()
    }

    fn ours(&self, mesh: &[Row], starts: &mut [u32], corners: &mut [i32]) -> Counts {
        to_convex_polygons(mesh.into(), starts.into(), corners.into())
    }
}

/// Past a limit, by a split and its number.
struct Splitting {
    limit: u32,
    split: ConvexSplitStrategy,
    by: u32,
}

impl Call for Splitting {
    fn rust(&self, mesh: &Prepared) -> Parts {
        mesh.split_parts(self.limit as usize, self.split)
    }

    fn ours(&self, mesh: &[Row], starts: &mut [u32], corners: &mut [i32]) -> Counts {
        to_convex_polygons_with_max_vertices(
            mesh.into(),
            self.limit,
            self.by,
            starts.into(),
            corners.into(),
        )
    }
}

/// One region, many, and meshes of few triangles.
pub const SPLIT_KINDS: &[(&str, Kind)] = &[
    ("one region: polygon of 1,026 corners", |rng, triangles| {
        let mesh = fan(rng, triangles);
        meshes::renumbered(rng, &mesh)
    }),
    ("128 regions of ten corners", |rng, triangles| {
        let polygon = decagon(rng);
        meshes::copies(rng, &polygon, triangles / 8)
    }),
    ("512 squares", squares),
    ("16 triangles: polygon of 18 corners", |rng, _| {
        cut_renumbered(rng, 16)
    }),
    ("2 triangles: a square", |rng, _| square(rng, 2)),
    ("1 triangle", |rng, _| cut(rng, 1)),
];

/// Few triangles, which most patterns are, and each size of our work arrays with one
/// triangle more, for which the next size is filled: one region, and many.
pub const SMALL_KINDS: &[(&str, Kind, &[usize])] = &[
    (
        "one region, a polygon cut at random",
        cut_renumbered,
        &[1, 8, 16, 17, 64, 128, 129, 512, 513],
    ),
    ("one region, a square", square, &[2]),
    (
        "many regions, an uneven strip",
        strip,
        &[8, 16, 64, 128, 130, 512],
    ),
    (
        "many regions, triangles apart",
        apart,
        &[2, 8, 16, 17, 64, 128, 129, 512, 513],
    ),
];

/// As many triangles as there may be: one region, some, and as many as triangles.
pub const KINDS: &[(&str, Kind)] = &[
    ("one region: polygon, a fan", fan),
    (
        "one region: polygon, a fan, renumbered",
        |rng, triangles| {
            let mesh = fan(rng, triangles);
            meshes::renumbered(rng, &mesh)
        },
    ),
    ("one region: polygon, cut at random", cut),
    ("one region: the same, renumbered", cut_renumbered),
    ("one region: level strip", level),
    ("one region: level strip, renumbered", |rng, triangles| {
        let mesh = level(rng, triangles);
        meshes::renumbered(rng, &mesh)
    }),
    ("some regions: grid of 32 by 16 squares", grid),
    ("some regions: the same, renumbered", |rng, triangles| {
        let mesh = grid(rng, triangles);
        meshes::renumbered(rng, &mesh)
    }),
    ("many regions: uneven strip", strip),
    ("many regions: the same, renumbered", |rng, triangles| {
        let mesh = strip(rng, triangles);
        meshes::renumbered(rng, &mesh)
    }),
    ("many regions: squares apart", squares),
    ("many regions: triangles apart", apart),
];

/// A strictly convex polygon, begun at any of its corners.
fn polygon(rng: &mut Rng, corners: usize) -> Vec<Point> {
    let mut contour = meshes::parabola(corners);
    contour.rotate_left(rng.below(corners));
    contour
}

fn fan(rng: &mut Rng, triangles: usize) -> Mesh {
    meshes::linked(&meshes::fan(&polygon(rng, triangles + 2)))
}

fn cut(rng: &mut Rng, triangles: usize) -> Mesh {
    meshes::linked(&meshes::polygon(rng, &meshes::parabola(triangles + 2)))
}

pub fn cut_renumbered(rng: &mut Rng, triangles: usize) -> Mesh {
    let mesh = cut(rng, triangles);
    meshes::renumbered(rng, &mesh)
}

fn strip(rng: &mut Rng, triangles: usize) -> Mesh {
    meshes::linked(&meshes::strip(rng, triangles as i32 / 2))
}

fn grid(rng: &mut Rng, triangles: usize) -> Mesh {
    meshes::linked(&meshes::grid(rng, triangles as i32 / 32, 16, 3))
}

pub fn square(rng: &mut Rng, _: usize) -> Mesh {
    let mesh = meshes::linked(&meshes::grid(rng, 1, 1, 4));
    meshes::renumbered(rng, &mesh)
}

/// A row of squares, each cut by either diagonal: all corners but four lie in line.
fn level(rng: &mut Rng, triangles: usize) -> Mesh {
    let mut square = |i: i32| {
        let [a, b, c, d] = [(i, 0), (i + 1, 0), (i + 1, 1), (i, 1)];
        if rng.once_in(2) {
            [[a, b, d], [b, c, d]]
        } else {
            [[a, c, d], [a, b, c]]
        }
    };
    let triangles: Vec<_> = (0..triangles as i32 / 2).flat_map(&mut square).collect();
    meshes::linked(&triangles)
}

pub fn squares(rng: &mut Rng, triangles: usize) -> Mesh {
    let square = meshes::linked(&meshes::grid(rng, 1, 1, 3));
    meshes::copies(rng, &square, triangles / 2)
}

/// Triangles of any shape that has an area, none linked.
fn apart(rng: &mut Rng, triangles: usize) -> Mesh {
    let mut mesh = meshes::apart(triangles);
    for triangle in &mut mesh {
        let [x, y, far] = [0; 3].map(|_| rng.below(99) as i32);
        triangle.points = [(x, y), (x + 1 + far, y), (far, y + 1 + x)];
        triangle.points.rotate_left(rng.below(3));
    }
    mesh
}

/// A strictly convex contour of ten corners, cut at random: eight triangles.
fn decagon(rng: &mut Rng) -> Mesh {
    loop {
        let contour = contours::convex(rng, 10, 1 << 12);
        if contour.len() == 10 {
            return meshes::linked(&meshes::polygon(rng, &contour));
        }
    }
}

/// A mesh as each side takes it, made before anything is timed.
struct Timed {
    rust: Prepared,
    ours: Vec<Row>,
}

impl Timed {
    fn of(mesh: &Mesh) -> Self {
        assert_eq!(judge::mesh::fault(mesh), 0);
        let records: Vec<Record> = mesh.iter().map(|t| (t.points, t.neighbours)).collect();
        Self {
            rust: Prepared::of(&records),
            ours: rows(mesh),
        }
    }
}

/// The Rust, ours, and our checks alone, in turn, each on another of the meshes.
fn ratios(all: &[Timed], call: &impl Call, rounds: usize) -> [f64; 2] {
    let mut starts = vec![0; 2 * TRIANGLES + 1];
    let mut corners = vec![0; 12 * TRIANGLES];
    // A call on a small mesh is so short that the clock is read but once for some.
    let times = (TRIANGLES / all[0].ours.len()).min(MESHES);
    let (mut rust, mut whole, mut checks) = (Vec::new(), Vec::new(), Vec::new());
    for round in 0..rounds {
        let at = |shift: usize| black_box(&all[(round + shift) % all.len()]);
        rust.push(timed(times, |k| call.rust(&at(k).rust)));
        whole.push(timed(times, |k| {
            call.ours(
                &at(k + 20).ours,
                black_box(&mut starts),
                black_box(&mut corners),
            )
        }));
        checks.push(timed(times, |k| mesh_fault(at(k + 40).ours[..].into())));
    }
    let [rust, whole, checks] = [rust, whole, checks].map(median);
    [(whole - checks) / rust, whole / rust]
}
