//! `bench [ROUNDS [joining|structs|splits|pairs|placement|paths|crate|contours|before]]`: times our
//! calls, the Rust's and, of all pairs, of a place by contours and of paths, C++ ones from this one
//! program on the same inputs, in turn, and prints our time over theirs; `before`, over an earlier
//! build's. docs/BENCHMARKS.md says what they show.

mod before;
mod bindings;
mod meshes;
mod pairs;
mod paths;
mod peers;
mod placement;
mod programs;
mod timing;

use std::env;

/// How often each function is called for a kind of mesh, or a quarter of that for a
/// kind, a limit and a split; fewer times for all pairs of many corners.
const ROUNDS: usize = 2_000;

fn main() {
    let words: Vec<String> = env::args().skip(1).collect();
    let rounds = words.first().and_then(|word| word.parse().ok());
    let rounds = rounds.unwrap_or(ROUNDS);
    let only = words.get(1).map(String::as_str);
    let topics: [(&str, fn(usize)); 9] = [
        ("joining", meshes::joining),
        ("structs", meshes::structs),
        ("splits", meshes::splits),
        ("pairs", pairs::pairs),
        ("placement", placement::placements),
        ("paths", paths::paths),
        ("crate", bindings::crate_calls),
        ("contours", programs::programs),
        ("before", before::builds),
    ];
    for (name, topic) in topics {
        if only.is_none() || only == Some(name) {
            topic(rounds);
        }
    }
}
