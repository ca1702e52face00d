//! All pair sums, timed: our `sum_parts`, whole and with all its checks, the Rust's and
//! a textbook merge in C++, on the same operands.

use crate::peers;
use crate::timing::{median, timed};
use driver::builds::{self, Build};
use driver::pairs::{Bounds, HandedOperand};
use i_triangle::int::expose::PreparedPairs;
use inputs::contours;
use inputs::rng::Rng;
use judge::table::Table;
use judge::Contour;
use std::hint::black_box;
use std::time::Duration;

/// How many left parts and right parts of how many corners each.
pub type Size = (usize, usize, usize);

pub const SIZES: [Size; 5] = [
    (64, 64, 8),
    (64, 64, 64),
    (64, 64, 128),
    (16, 16, 512),
    (2_048, 16, 4),
];

/// The same contours, four times as many pairs from line to line.
const GROWING: [Size; 3] = [(16, 16, 8), (32, 32, 8), (64, 64, 8)];

/// How many operands of a small job take turns, so many that the processor cannot learn
/// their branches.
pub const TURNS: usize = 256;

/// Small jobs: one pair of triangles, and 4 by 4 contours.
pub const SMALL: [(Size, &str); 2] = [
    ((1, 1, 3), "one pair of triangles"),
    ((4, 4, 8), "4 by 4 of 8 corners"),
];

pub fn pairs(rounds: usize) {
    println!("our whole sum_parts: its time over that of the C++, of the Rust's walks alone,");
    println!("of the Rust's sum_parts; CGAL's time over ours where it is installed");
    println!("ample room       exact room");
    for size in SIZES {
        let mut subject = Subject::of(&mut Rng::new(1), size);
        // As many calls of a size as take about as long as those of another.
        let rounds = (rounds * 20_000 / subject.corners).clamp(101, rounds.max(101));
        let times = subject.times(rounds, 1);
        println!("{}    {}", times.told(), name(size));
    }
    let mut subject = Subject::between(&octagons(64), &octagons(64));
    let times = subject.times((rounds / 3).max(101), 1);
    println!("{}    64 by 64 octagons, all edges tie", times.told());
    for (size, name) in SMALL {
        small(rounds, size, name);
    }
    growth(rounds);
}

pub fn name((left, right, corners): Size) -> String {
    format!("{left} by {right} of {corners} corners")
}

/// A small job, the same one or another each time.
fn small(rounds: usize, size: Size, name: &str) {
    let mut rng = Rng::new(1);
    let mut all: Vec<Subject> = (0..TURNS).map(|_| Subject::of(&mut rng, size)).collect();
    for (count, which) in [(1, "the same"), (TURNS, "another each time")] {
        let mut times = Times::default();
        for _ in 0..(rounds / size.0).max(101) {
            times.add_turns(&mut all[..count], TURNS);
        }
        println!("{}    {name}, {which}", times.told());
    }
}

/// Octagons of several sizes whose edges lie on the axes and the diagonals.
fn octagons(count: i32) -> Vec<Contour> {
    let corners = [
        (1, 0),
        (2, 0),
        (3, 1),
        (3, 2),
        (2, 3),
        (1, 3),
        (0, 2),
        (0, 1),
    ];
    (1..=count)
        .map(|k| corners.map(|(x, y)| (k * x, k * y)).to_vec())
        .collect()
}

/// The time for each result corner at three sizes over that at the first.
fn growth(rounds: usize) {
    println!("our time for each result corner over that of the first");
    println!("ample room    exact room");
    let mut rng = Rng::new(1);
    let mut all = GROWING.map(|size| Subject::of(&mut rng, size));
    let mut times = GROWING.map(|_| Times::default());
    for _ in 0..(rounds / 4).max(101) {
        for (subject, times) in all.iter_mut().zip(&mut times) {
            times.add_ours(subject);
        }
    }
    let each: Vec<[f64; 2]> = times
        .into_iter()
        .zip(&all)
        .map(|(t, s)| [t.ample, t.exact].map(|t| median(t) / s.corners as f64))
        .collect();
    for (size, now) in GROWING.into_iter().zip(&each) {
        let [ample, exact] = [0, 1].map(|k| now[k] / each[0][k]);
        println!("{ample:4.2}          {exact:4.2}          {}", name(size));
    }
}

/// Two operands as each side takes them, made before anything is timed.
pub struct Subject {
    left: Side,
    right: Side,
    rust: PreparedPairs,
    /// How many corners all pairs have.
    corners: usize,
    /// Lent: places for the starts, and for as many corners as there can be.
    starts: Vec<u32>,
    numbers: Vec<i32>,
}

struct Side {
    table: Table,
    bounds: [i32; 4],
    peer: Option<peers::Operand>,
}

impl Side {
    fn of(parts: &[Contour]) -> Self {
        let table = Table::of(parts);
        Self {
            bounds: contours::bounds(&parts.concat()),
            peer: peers::Operand::new(&table),
            table,
        }
    }

    fn handed(&self) -> HandedOperand {
        HandedOperand {
            table: (&self.table).into(),
            bounds: Bounds(self.bounds),
        }
    }
}

impl Subject {
    /// Of strictly convex parts. Where there is more than one pair, the first right part is
    /// the first left one, whose edges all tie: so the pairs have fewer corners than there
    /// could be, and exact room makes the call count them.
    pub fn of(rng: &mut Rng, (left, right, corners): Size) -> Self {
        let mut parts =
            |count| -> Vec<Contour> { (0..count).map(|_| convex(rng, corners)).collect() };
        let (left, mut right) = (parts(left), parts(right));
        if right.len() > 1 {
            right[0].clone_from(&left[0]);
        }
        let subject = Self::between(&left, &right);
        assert_eq!(2 * subject.corners < subject.numbers.len(), right.len() > 1);
        subject
    }

    fn between(left: &[Contour], right: &[Contour]) -> Self {
        let (l, r) = (Side::of(left), Side::of(right));
        let mut rust = PreparedPairs::of(left, l.bounds, right, r.bounds);
        let most = right.len() * l.table.corner_count() + left.len() * r.table.corner_count();
        let corners = rust.draw();
        let mut subject = Self {
            starts: vec![0; left.len() * right.len() + 1],
            numbers: vec![0; 2 * most],
            left: l,
            right: r,
            rust,
            corners,
        };
        subject.agree();
        subject
    }

    /// All that is timed answers alike.
    fn agree(&mut self) {
        let shapes = self.rust.sum_parts().expect("an accepted pair");
        let rust: Vec<i32> = shapes
            .iter()
            .flatten()
            .flatten()
            .flat_map(|p| [p.x, p.y])
            .collect();
        for room in [self.numbers.len(), 2 * self.corners] {
            for build in [Some(builds::this()), builds::earlier()]
                .into_iter()
                .flatten()
            {
                self.numbers.fill(0);
                assert_eq!(self.told(&build, room), self.corners);
                assert!(self.numbers.starts_with(&rust));
            }
        }
        self.numbers.fill(0);
        if let Some(count) = self.textbook() {
            assert_eq!(count, self.corners);
            assert!(self.numbers.starts_with(&rust));
        }
    }

    fn ours(&mut self, room: usize) -> usize {
        self.told(&builds::this(), room)
    }

    /// How many corners a build tells.
    pub fn told(&mut self, build: &Build, room: usize) -> usize {
        let operands = [self.left.handed(), self.right.handed()];
        let starts = black_box(&mut self.starts[..]);
        let numbers = black_box(&mut self.numbers[..room]);
        let told = build.sum_parts(operands, starts.into(), numbers.into());
        assert_eq!(told.fault, 0);
        told.corners as usize
    }

    /// Places for as many corners as there can be, and for just those that there are.
    pub fn rooms(&self) -> [usize; 2] {
        [self.numbers.len(), 2 * self.corners]
    }

    fn textbook(&mut self) -> Option<usize> {
        let (left, right) = (self.left.peer.as_ref()?, self.right.peer.as_ref()?);
        Some(left.textbook(right, black_box(&mut self.numbers)))
    }

    fn cgal(&self) -> Option<usize> {
        self.left.peer.as_ref()?.cgal(self.right.peer.as_ref()?)
    }

    fn times(&mut self, rounds: usize, calls: usize) -> Times {
        let mut times = Times::default();
        for _ in 0..rounds {
            times.add_turns(std::slice::from_mut(self), calls);
        }
        times
    }
}

/// A strictly convex contour of just so many corners.
pub fn convex(rng: &mut Rng, corners: usize) -> Contour {
    loop {
        let contour = contours::convex(rng, corners, 1 << 28);
        if contour.len() == corners {
            return contour;
        }
    }
}

/// How long each took, round by round.
#[derive(Default)]
struct Times {
    ample: Vec<Duration>,
    exact: Vec<Duration>,
    textbook: Vec<Duration>,
    walks: Vec<Duration>,
    rust: Vec<Duration>,
    cgal: Vec<Duration>,
}

impl Times {
    /// So many calls of each, in turn, on one subject after another.
    fn add_turns(&mut self, all: &mut [Subject], calls: usize) {
        let n = all.len();
        if all[0].left.peer.is_some() {
            self.textbook.push(timed(calls, |k| all[k % n].textbook()));
        }
        let ours = |all: &mut [Subject], exact: usize| {
            timed(calls, |k| {
                let room = all[k % n].rooms()[exact];
                all[k % n].ours(room)
            })
        };
        self.ample.push(ours(all, 0));
        self.walks.push(timed(calls, |k| all[k % n].rust.draw()));
        self.exact.push(ours(all, 1));
        self.rust
            .push(timed(calls, |k| all[k % n].rust.sum_parts()));
        // CGAL takes so long that three rounds are enough.
        if self.cgal.len() < 3 && all[0].cgal().is_some() {
            self.cgal.push(timed(calls, |k| all[k % n].cgal()));
        }
    }

    /// Ours alone.
    fn add_ours(&mut self, subject: &mut Subject) {
        let [ample, exact] = subject.rooms();
        self.ample.push(timed(1, |_| subject.ours(ample)));
        self.exact.push(timed(1, |_| subject.ours(exact)));
    }

    fn told(self) -> String {
        let of = |times: Vec<Duration>| (!times.is_empty()).then(|| median(times));
        let theirs = [self.textbook, self.walks, self.rust].map(of);
        let cgal = of(self.cgal);
        let ours = [self.ample, self.exact].map(median);
        let over = |ours: f64, theirs: Option<f64>| match theirs {
            Some(theirs) => format!("{:4.2}", ours / theirs),
            None => "none".into(),
        };
        let told = ours.map(|ours| theirs.map(|theirs| over(ours, theirs)).join(" "));
        let cgal = cgal.map_or("none".into(), |cgal| format!("{:.0}", cgal / ours[0]));
        format!("{}   {}   {cgal}", told[0], told[1])
    }
}
