//! The import of a path, timed: our `import_path`, and in C++ a plain loop that judges the path
//! and one that writes its corners.

use crate::peers;
use crate::timing::{median, timed};
use driver::boundary::import_path;
use driver::lent::Handed;
use driver::path::{HandedFrame, ToldCorners};
use inputs::paths::{of_corners, Import};
use inputs::rng::Rng;
use judge::path::{imported, Item, LINE, MOVE};
use std::hint::black_box;
use std::time::Duration;

const CORNERS: [usize; 5] = [1, 3, 8, 64, 1_026];

/// How many paths of a kind take turns, and about how many corners are asked for between two
/// looks at the clock.
const INPUTS: usize = 64;
const WORK: usize = 4_096;

pub fn paths(rounds: usize) {
    println!("our import_path's time over that of C++, a loop that judges and one that writes");
    println!("lines alone, every kind of item");
    for corners in CORNERS {
        let ratios = [lines, mixed].map(|kind| {
            let mut rng = Rng::new(1);
            let all: Vec<Import> = (0..INPUTS).map(|_| kind(&mut rng, corners)).collect();
            ratio(&all, rounds)
        });
        let [Some(lines), Some(mixed)] = ratios else {
            println!("paths: there is no C++ to time them beside");
            return;
        };
        println!("{lines:4.2} {mixed:4.2}    {corners} corners");
    }
}

/// Of every kind that draws a line.
fn mixed(rng: &mut Rng, corners: usize) -> Import {
    of_corners(rng, corners)
}

/// The points of such a path, each by an absolute line.
fn lines(rng: &mut Rng, corners: usize) -> Import {
    let mut import = of_corners(rng, corners);
    let points = judge::path::points(&import.path).expect("a good path");
    for (k, [x, y]) in points.into_iter().enumerate() {
        let kind = if k == 0 { MOVE } else { LINE };
        let [x, y] = [x, y].map(|v| v.nearest());
        import.path[k] = Item { kind, x, y };
    }
    import
}

type Called = (Handed<Item>, HandedFrame, Handed<i32>);

/// Our time over theirs, which are first seen to tell and write what the judge does.
fn ratio(all: &[Import], rounds: usize) -> Option<f64> {
    let mut numbers = vec![0i32; all[0].lent];
    let ours = |(path, frame, out): Called| import_path(path, frame, out);
    let theirs = |(path, frame, out): Called| peers::import_path(path, frame, out);
    for import in all {
        let corners = imported(&import.path, &import.frame, import.lent).expect("a good path");
        let corners: Vec<i32> = corners.iter().flat_map(|c| [c.0, c.1]).collect();
        let told = ToldCorners {
            fault: 0,
            corners: (corners.len() / 2) as u32,
        };
        assert_eq!(ours(called(import, &mut numbers)), told);
        assert_eq!(numbers, corners);
        numbers.fill(0);
        assert_eq!(theirs(called(import, &mut numbers))?, told);
        assert_eq!(numbers, corners);
    }
    let times = (WORK / all[0].path.len()).clamp(1, 512);
    let rounds = (rounds / 4).max(51);
    let mut taken: [Vec<Duration>; 2] = Default::default();
    for round in 0..rounds {
        // Each on another path: on the same one the second call's branches are learnt.
        let at = |k: usize| black_box(&all[(round + k) % all.len()]);
        let first = timed(times, |k| ours(called(at(k), &mut numbers)));
        let second = timed(times, |k| theirs(called(at(k + 32), &mut numbers)));
        taken[0].push(first);
        taken[1].push(second);
    }
    let [ours, theirs] = taken.map(median);
    Some(ours / theirs)
}

fn called(import: &Import, numbers: &mut [i32]) -> Called {
    (import.path[..].into(), import.frame.into(), numbers.into())
}
