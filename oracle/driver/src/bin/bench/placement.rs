//! A place by many contours, timed: our `placement`, whole and with its checks, and three
//! plain loops in C++ over the same contours.

use crate::pairs::convex;
use crate::peers;
use crate::timing::{median, timed};
use driver::boundary::placement;
use driver::table::HandedTable;
use inputs::rng::Rng;
use judge::table::Table;
use judge::{Contour, Point};
use std::hint::black_box;
use std::time::Duration;

pub const CORNERS: [usize; 5] = [3, 6, 12, 32, 128];
pub const CONTOURS: [usize; 4] = [1, 16, 1_024, 16_384];

/// About how many corners are asked of between two looks at the clock.
pub const WORK: usize = 4_096;

/// How many contours are made; more are these again.
const MADE: usize = 256;

pub fn placements(rounds: usize) {
    let Some(peers) = peers::placements() else {
        println!("placement: there is no C++ to time it beside");
        return;
    };
    println!("our placement's time over that of C++: every edge asked, a contour left at the");
    println!("first edge that the place is right of, that after the refusals");
    println!("apart               touching each");
    for corners in CORNERS {
        for contours in CONTOURS {
            let ratios = [apart, touching].map(|kind| {
                let mut rng = Rng::new(1);
                let table = about(&mut rng, contours, corners, kind);
                ratios(&table, peers, rounds)
            });
            let [apart, touching] = ratios;
            println!("{apart}      {touching}      {contours} of {corners} corners");
        }
    }
}

/// The place that all is asked about.
pub const PLACE: Point = (0, 0);

/// So many strictly convex contours about the place, each as its kind has it.
pub fn about(
    rng: &mut Rng,
    count: usize,
    corners: usize,
    kind: fn(&mut Rng, &Contour) -> Point,
) -> Table {
    let made: Vec<Contour> = (0..count.min(MADE)).map(|_| convex(rng, corners)).collect();
    let moved = |k: usize| -> Contour {
        let contour = &made[k % made.len()];
        let (x, y) = kind(rng, contour);
        contour.iter().map(|c| (c.0 - x, c.1 - y)).collect()
    };
    Table::of(&(0..count).map(moved).collect::<Vec<_>>())
}

/// A point that the contour is apart from, to any side and not far.
pub fn apart(rng: &mut Rng, contour: &Contour) -> Point {
    loop {
        let reach = 1 << 29;
        let point = (rng.between(-reach, reach), rng.between(-reach, reach));
        if judge::placement::placement(&Table::of(&[contour.clone()]), point) == 0 {
            return point;
        }
    }
}

/// A corner.
pub fn touching(rng: &mut Rng, contour: &Contour) -> Point {
    contour[rng.below(contour.len())]
}

/// Over each of the C++ loops, all of which are first seen to tell the same.
fn ratios(table: &Table, peers: [fn(&Table, Point) -> u32; 3], rounds: usize) -> String {
    let ours = |table: &Table| {
        let told = placement(HandedTable::from(table), PLACE);
        16 * told.fault + told.placement
    };
    let judged = judge::placement::placement(table, PLACE);
    assert_eq!(ours(table), judged);
    assert!(peers.iter().all(|peer| peer(table, PLACE) == judged));
    let times = (WORK / table.corner_count()).clamp(1, 256);
    let rounds = (rounds * WORK / table.corner_count()).clamp(51, rounds.max(51));
    let mut taken: [Vec<Duration>; 4] = Default::default();
    for _ in 0..rounds {
        taken[0].push(timed(times, |_| ours(black_box(table))));
        for (peer, taken) in peers.iter().zip(&mut taken[1..]) {
            taken.push(timed(times, |_| peer(black_box(table), black_box(PLACE))));
        }
    }
    let [ours, theirs @ ..] = taken.map(median);
    theirs
        .map(|theirs| format!("{:4.2}", ours / theirs))
        .join(" ")
}
