//! The program `contours`, timed as a process beside the Rust's own calls composed
//! (`composed`), on the same bytes: from two mesh files to the text of all pairs.

use crate::timing::median;
use driver::programs::child;
use inputs::meshes::{self, Mesh};
use inputs::rng::Rng;
use inputs::two_files::file;
use judge::file::Split;
use std::env;
use std::path::Path;
use std::time::Duration;

/// What the C library's `getrusage` fills in: user time, system time, and the rest.
#[repr(C)]
struct Usage {
    times: [[i64; 2]; 2],
    rest: [i64; 14],
}

extern "C" {
    fn getrusage(who: i32, usage: *mut Usage) -> i32;
}

/// The processor's time that all processes have taken that this one waited for.
fn children() -> Duration {
    let mut usage = Usage {
        times: [[0; 2]; 2],
        rest: [0; 14],
    };
    // Safe: it writes the numbers of a place that is there; -1 is its name for children.
    let told = unsafe { getrusage(-1, &mut usage) };
    assert_eq!(told, 0, "the children's time can be read");
    let part = |[s, m]: [i64; 2]| Duration::new(s as u64, 1_000 * m as u32);
    part(usage.times[0]) + part(usage.times[1])
}

fn taken(program: &Path, bytes: &[u8]) -> Duration {
    let begun = children();
    child(program, bytes);
    children() - begun
}

/// The meshes that are paired with others of their kind.
const KINDS: [(&str, fn(&mut Rng, usize) -> Mesh); 2] = [
    ("triangles apart", |_, count| meshes::apart(count)),
    ("joined where they can be", meshes::good_of),
];

/// Where BENCH_PROGRAMS names the two programs, with a colon between.
pub fn programs(rounds: usize) {
    let named = env::var("BENCH_PROGRAMS").unwrap_or_default();
    let Some((ours, theirs)) = named.split_once(':') else {
        println!("contours: BENCH_PROGRAMS names no programs");
        return;
    };
    println!("the program contours over the Rust's calls composed, whole processes");
    for (name, kind) in KINDS {
        for triangles in [2, 64, 1_024] {
            let rng = &mut Rng::new(1);
            let mut mesh = || file(kind(rng, triangles), 8, Split::Ear);
            let bytes = [vec![1, 0, 0, 0], mesh(), mesh()].concat();
            let [ours, theirs] = [ours, theirs].map(Path::new);
            let same = child(ours, &bytes).output == child(theirs, &bytes).output;
            assert!(same, "both write the same");
            let mut times = [const { Vec::new() }; 2];
            for _ in 0..(rounds / triangles).clamp(5, 101) {
                times[0].push(taken(ours, &bytes));
                times[1].push(taken(theirs, &bytes));
            }
            let [ours, theirs] = times.map(median);
            println!(
                "{:4.2}    {triangles} triangles on both sides: {name}",
                ours / theirs
            );
        }
    }
}
