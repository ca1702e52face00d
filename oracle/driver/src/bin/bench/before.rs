//! This build's calls beside an earlier build's, on the same inputs: joining, splitting, all
//! pairs and a place by contours. A row is timed some times over, so that one sees how far its
//! runs differ; with this very build as the earlier one, what its place in memory does.

use crate::meshes::{self, Kind};
use crate::pairs::{self, Size, Subject};
use crate::placement;
use crate::timing::{median, timed};
use driver::builds::{self, Build};
use driver::mesh::{rows, Row};
use driver::table::HandedTable;
use inputs::rng::Rng;
use judge::limits::TRIANGLES;
use std::hint::black_box;

/// How often each row is timed.
const RUNS: usize = 5;

/// About how many corners or triangles are asked of between two looks at the clock.
const WORK: usize = 4_096;

pub fn builds(rounds: usize) {
    let Some(earlier) = builds::earlier() else {
        println!("before: BENCH_BEFORE names no earlier build");
        return;
    };
    println!("this build's time over the earlier one's: the least, the middle and the greatest");
    println!("of {RUNS} runs");
    let beside = Beside {
        builds: [builds::this(), earlier],
        rounds: (rounds / RUNS).max(51),
    };
    beside.joining();
    beside.splits();
    beside.pairs();
    beside.placements();
}

struct Beside {
    builds: [Build; 2],
    rounds: usize,
}

impl Beside {
    /// Prints a row: so many calls between two looks at the clock. The two builds go first by
    /// turns, for what comes second finds the lent memory near.
    fn row(&self, name: &str, calls: usize, mut call: impl FnMut(&Build, usize) -> u32) {
        let mut ratios: Vec<f64> = (0..RUNS)
            .map(|_| {
                let mut taken = [Vec::new(), Vec::new()];
                for round in 0..self.rounds {
                    for which in [round % 2, 1 - round % 2] {
                        let build = &self.builds[which];
                        taken[which].push(timed(calls, |k| call(build, round + k)));
                    }
                }
                let [this, earlier] = taken.map(median);
                this / earlier
            })
            .collect();
        ratios.sort_by(f64::total_cmp);
        let [least, middle, greatest] = [ratios[0], ratios[RUNS / 2], ratios[RUNS - 1]];
        println!("{least:4.2} {middle:4.2} {greatest:4.2}    {name}");
    }

    fn joining(&self) {
        for &(name, kind, sizes) in meshes::SMALL_KINDS {
            for &triangles in sizes {
                self.mesh(
                    kind,
                    triangles,
                    &format!("{triangles} triangles: {name}"),
                    None,
                );
            }
        }
        for &(name, kind) in meshes::KINDS {
            self.mesh(kind, TRIANGLES, name, None);
        }
    }

    fn splits(&self) {
        for &(name, kind) in meshes::SPLIT_KINDS {
            for (split, by) in ["ear clipping", "fan", "centroid"].into_iter().zip(0..) {
                for limit in [3, 8] {
                    let name = format!("{name}; limit {limit}, {split}");
                    self.mesh(kind, TRIANGLES, &name, Some([limit, by]));
                }
            }
        }
    }

    /// Another mesh of a kind each time, joined, or split past a limit.
    fn mesh(&self, kind: Kind, triangles: usize, name: &str, split: Option<[u32; 2]>) {
        let mut rng = Rng::new(1);
        let all: Vec<Vec<Row>> = (0..meshes::MESHES)
            .map(|_| rows(&kind(&mut rng, triangles)))
            .collect();
        let mut starts = vec![0; 2 * TRIANGLES + 1];
        let mut corners = vec![0; 12 * TRIANGLES];
        let calls = (WORK / all[0].len()).clamp(1, all.len());
        self.row(name, calls, |build, k| {
            let mesh = black_box(&all[k % all.len()][..]).into();
            let (starts, corners) = (black_box(&mut starts[..]), black_box(&mut corners[..]));
            let told = match split {
                None => build.to_convex_polygons(mesh, starts.into(), corners.into()),
                Some(how) => build.with_max_vertices(mesh, how, starts.into(), corners.into()),
            };
            assert_eq!(told.fault, 0);
            told.corners
        });
    }

    fn pairs(&self) {
        for size in pairs::SIZES {
            self.sums(size, &pairs::name(size), 1);
        }
        for (size, name) in pairs::SMALL {
            self.sums(size, &format!("{name}, the same"), 1);
            self.sums(size, &format!("{name}, another each time"), pairs::TURNS);
        }
    }

    /// All pairs of one subject, or of one after another.
    fn sums(&self, size: Size, name: &str, count: usize) {
        let mut rng = Rng::new(1);
        let mut all: Vec<Subject> = (0..count).map(|_| Subject::of(&mut rng, size)).collect();
        let calls = (WORK / all[0].rooms()[0]).clamp(1, pairs::TURNS);
        for (which, room) in ["ample", "exact"].into_iter().enumerate() {
            self.row(&format!("{name}, {room} room"), calls, |build, k| {
                let subject = &mut all[k % count];
                let room = subject.rooms()[which];
                subject.told(build, room) as u32
            });
        }
    }

    fn placements(&self) {
        for corners in placement::CORNERS {
            for contours in placement::CONTOURS {
                for (kind, which) in [placement::apart, placement::touching]
                    .into_iter()
                    .zip(["apart", "touching"])
                {
                    let table = placement::about(&mut Rng::new(1), contours, corners, kind);
                    let calls = (WORK / table.corner_count()).clamp(1, 256);
                    let name = format!("{contours} contours of {corners} corners, {which}");
                    self.row(&name, calls, |build, _| {
                        let told =
                            build.placement(HandedTable::from(black_box(&table)), placement::PLACE);
                        assert_eq!(told.fault, 0);
                        told.placement
                    });
                }
            }
        }
    }
}
