//! What is asked of `import_path`: a path, a frame and the numbers lent. Every short list of
//! kinds; halves, the ends of both ranges and their neighbours, the least numbers and far
//! origins, reached by each kind of item; every room; long paths; each fault alone and every two
//! together; and random ones. What an item does not carry holds any bits.

use crate::rng::Rng;
use crate::table_calls::Inputs;
use judge::limits::CONTOUR;
use judge::path::{Frame, Item, CLOSE, HORIZONTAL, LINE, MOVE, RELATIVE_LINE, VERTICAL};
use judge::Fault;

/// A path and its frame, and how many numbers are lent for the corners.
#[derive(Debug, Clone, PartialEq, Eq)]
pub struct Import {
    pub path: Vec<Item>,
    pub frame: Frame,
    pub lent: usize,
}

/// The listed ones, then so many random ones.
pub fn asked(rng: &mut Rng, count: u64) -> Inputs<'_, Import> {
    let mut listed = at_edges(rng);
    listed.extend(roomed(rng));
    listed.extend(damaged(rng));
    let long = long(rng);
    let random = (0..count).map(move |_| any(rng));
    Box::new(small().chain(listed).chain(long).chain(random))
}

/// The end of the range of millimetres.
const END: f64 = 1_048_576.0;

/// Kinds that there are not.
const UNKNOWN: [u64; 7] = [6, 7, 255, 256, 1 << 32, (1 << 32) + 1, u64::MAX];

/// The kinds that draw a line.
const LINES: [u64; 4] = [LINE, HORIZONTAL, VERTICAL, RELATIVE_LINE];

// ---- numbers

/// 2 to a power, from −1,022 to 1,023.
fn power(k: i32) -> f64 {
    f64::from_bits(((1_023 + k) as u64) << 52)
}

/// A number of f64, the next one farther from zero and the next one nearer to it, of both signs.
fn about(value: f64) -> [f64; 6] {
    let bits = value.to_bits();
    let [farther, nearer] = [bits + 1, bits.saturating_sub(1)].map(f64::from_bits);
    [value, farther, nearer, -value, -farther, -nearer]
}

/// Bits that stand for no finite number.
fn not_finite(rng: &mut Rng) -> u64 {
    let sign = rng.word() & 1 << 63;
    let fraction = match rng.below(4) {
        0 | 1 => 0,
        2 => 1 << 51,
        _ => rng.word() >> 12 | 1,
    };
    sign | 0x7ff << 52 | fraction
}

/// Any bits, for a number that an item does not carry.
fn idle(rng: &mut Rng) -> u64 {
    match rng.below(4) {
        0 => not_finite(rng),
        1 => rng
            .pick(&[0.0, -0.0, 1.0, 2.0 * END, -1e300, f64::MAX])
            .to_bits(),
        _ => rng.word(),
    }
}

fn item(rng: &mut Rng, kind: u64, x: f64, y: f64) -> Item {
    let carries = |axis: u64| kind != CLOSE && kind != axis;
    let mut bits = |carried: bool, value: f64| match carried {
        true => value.to_bits(),
        false => idle(rng),
    };
    let x = bits(carries(VERTICAL), x);
    let y = bits(carries(HORIZONTAL), y);
    Item { kind, x, y }
}

fn frame(x: f64, y: f64, steps: f64) -> Frame {
    let [x, y, steps] = [x, y, steps].map(f64::to_bits);
    Frame { x, y, steps }
}

/// The numbers of the answer, were the path taken.
fn needed(path: &[Item]) -> usize {
    2 * path.len().saturating_sub(1)
}

/// From a point by some lines, with exact room.
fn drawn(rng: &mut Rng, from: (f64, f64), lines: &[(u64, f64, f64)], frame: Frame) -> Import {
    let mut path = vec![item(rng, MOVE, from.0, from.1)];
    path.extend(lines.iter().map(|&(kind, x, y)| item(rng, kind, x, y)));
    path.push(item(rng, CLOSE, 0.0, 0.0));
    let lent = needed(&path);
    Import { path, frame, lent }
}

// ---- listed ones

/// Every list of up to five kinds, one that there is not among them; each number tells its
/// place.
fn small() -> impl Iterator<Item = Import> {
    (0..=5u32).flat_map(|n| {
        (0..7u64.pow(n)).map(move |code| {
            let item = |i: u32| {
                let place = f64::from(i);
                let [x, y] = [place + 0.5, 0.25 - 2.0 * place].map(f64::to_bits);
                let kind = code / 7u64.pow(i) % 7;
                Item { kind, x, y }
            };
            Import {
                path: (0..n).map(item).collect(),
                frame: frame(0.25, -0.5, 4.0),
                lent: 9,
            }
        })
    })
}

/// A coordinate, and the frame's origin and steps by which it is asked about.
type Asked = (f64, f64, f64);

/// The step counts.
fn steps() -> impl Iterator<Item = f64> {
    (0..=10).map(power)
}

/// Halves of the grid, by an origin of zero and as a difference from other origins.
fn halves() -> Vec<Asked> {
    let mut out = Vec::new();
    for steps in steps() {
        for n in [0.0, 1.0, 2.0, 999.0, END * steps - 1.0] {
            let half = (n + 0.5) / steps;
            out.extend(about(half).map(|v| (v, 0.0, steps)));
            out.extend(about(half).map(|v| (0.0, v, steps)));
            out.extend([1.0, -1.0].map(|by| (half + by, by, steps)));
            // the exact difference is a little less or more than a half
            for little in [
                power(-1_022),
                power(-60),
                power(-54),
                power(-53),
                power(-52),
            ] {
                out.extend([little, -little].map(|v| (v, -half, steps)));
                out.extend([little, -little].map(|v| (v, half, steps)));
            }
        }
    }
    out
}

/// The ends of both ranges.
fn ends() -> Vec<Asked> {
    let mut out = Vec::new();
    for steps in steps() {
        out.extend(about(END).map(|v| (v, 0.0, steps)));
        out.extend(about(END).map(|v| (v, v, steps)));
        for k in [-2.0, -1.5, -1.0, -0.75, -0.5, -0.25, 0.0, 0.5, 1.0] {
            let edge = (power(30) + k) / steps;
            out.extend(about(edge).map(|v| (v, 0.0, steps)));
            out.extend(about(edge).map(|v| (0.0, v, steps)));
            out.extend(about(edge).map(|v| (END, END - v, steps)));
            out.extend(about(edge).map(|v| (-0.1, -0.1 - v, steps)));
        }
    }
    out
}

/// The least numbers, and far origins.
fn extremes() -> Vec<Asked> {
    let least = [1, 2, 3, (1 << 52) - 1, 1 << 52, (1 << 52) + 1].map(f64::from_bits);
    let far = [31, 32, 52, 53, 62, 63, 64, 127, 1_013, 1_014, 1_023].map(power);
    let mut out = Vec::new();
    for steps in [1.0, 2.0, 64.0, 1_024.0] {
        for v in least.into_iter().flat_map(|v| [v, -v]) {
            out.extend([0.0, 0.5, -0.5, v, -v, 1.0].map(|origin| (v, origin, steps)));
            out.extend([0.5, -2.5, END].map(|at| (at, v, steps)));
        }
        for v in far.into_iter().chain([1e300]).flat_map(about) {
            out.extend([0.0, -0.7, END].map(|at| (at, v, steps)));
        }
        out.extend([f64::MAX, f64::MIN].map(|v| (END, v, steps)));
    }
    out
}

/// Numbers and sums about halves and about the ends of both ranges.
pub fn at_edges(rng: &mut Rng) -> Vec<Import> {
    let mut out = at_numbers(rng);
    out.extend(summed(rng));
    out
}

/// Each of these as x and as y, reached by a move, by a line, by one along the axis and by a
/// relative one from zero.
fn at_numbers(rng: &mut Rng) -> Vec<Import> {
    let all = [halves(), ends(), extremes()].concat();
    let mut out = Vec::new();
    for (at, origin, steps) in all {
        let x = frame(origin, 0.0, steps);
        let y = frame(0.0, origin, steps);
        out.push(drawn(rng, (at, 0.0), &[], x));
        out.push(drawn(rng, (0.0, at), &[], y));
        for kind in [LINE, HORIZONTAL, RELATIVE_LINE] {
            out.push(drawn(rng, (0.0, 0.5), &[(kind, at, 0.0)], x));
        }
        for kind in [LINE, VERTICAL, RELATIVE_LINE] {
            out.push(drawn(rng, (0.5, 0.0), &[(kind, 0.0, at)], y));
        }
    }
    out
}

/// Relative lines whose sums are rounded: about the end of the range, to it from the other end,
/// and little by little.
fn summed(rng: &mut Rng) -> Vec<Import> {
    let mut out = Vec::new();
    let one = frame(0.0, 0.0, 1.0);
    for little in [-34, -33, -32, -31, -60, -1_022].map(power) {
        for by in about(little) {
            for from in [END, -END, f64::from_bits(END.to_bits() - 1), 0.5, -2.5, 1.0] {
                let line = (RELATIVE_LINE, by, -by);
                out.push(drawn(rng, (from, from), &[line], one));
                out.push(drawn(rng, (from, -from), &[line, line, line], one));
            }
        }
    }
    for by in about(2.0 * END) {
        let line = (RELATIVE_LINE, by, 0.0);
        out.extend([END, -END].map(|from| drawn(rng, (from, 0.0), &[line], one)));
    }
    for by in [0.1, 0.7, -0.3, 1.1, 1e-3, 1.0 / 3.0] {
        for steps in steps() {
            let lines = [(RELATIVE_LINE, by, -by); 40];
            out.push(drawn(rng, (by, 0.0), &lines, frame(0.05, -0.05, steps)));
        }
    }
    out
}

/// Good ones with every room: none, one number, half, the last one or two short, exact, more.
fn roomed(rng: &mut Rng) -> Vec<Import> {
    let mut out = Vec::new();
    for corners in (1..=8).chain([CONTOUR]) {
        let path = of_corners(rng, corners);
        let n = needed(&path.path);
        for lent in [0, 1, n / 2, n - 2, n - 1, n, n + 1, n + 2, n + 3, n + 40] {
            let mut import = path.clone();
            import.lent = lent;
            out.push(import);
        }
    }
    out
}

/// About as many corners as there may be, and many more: good ones, off the grid in the last
/// corner or everywhere, with a fault in the last line, with the close missing, and no room.
fn long(rng: &mut Rng) -> Vec<Import> {
    let mut out = Vec::new();
    for corners in [1_024, 1_025, 1_026, 1_027, 1_028, 2_052, 4_096, 66_000] {
        let good = of_corners(rng, corners);
        let mut with = |change: &dyn Fn(&mut Import)| {
            let mut import = good.clone();
            change(&mut import);
            out.push(import);
        };
        let last = corners - 1;
        with(&|_| {});
        with(&|import| import.lent -= 1);
        with(&|import| import.frame.y = 1e10f64.to_bits());
        with(&|import| {
            import.frame = frame(-power(30) + 0.75 * END, 0.0, 1.0);
            import.path[last].kind = LINE;
            import.path[last].x = END.to_bits();
            import.path[last].y = 0;
        });
        with(&|import| import.path[last].kind = 6);
        with(&|import| {
            import.path[last].kind = LINE;
            import.path[last].y = f64::NAN.to_bits();
        });
        with(&|import| {
            import.path[last] = Item {
                kind: LINE,
                x: 0,
                y: (2.0 * END).to_bits(),
            }
        });
        with(&|import| import.path.truncate(corners));
        with(&|import| import.lent = 0);
    }
    out
}

// ---- good ones

/// How far good paths go: their points, with what relative lines add, and their origins lie so
/// near that no step count leads off the grid.
const REACHES: [f64; 6] = [1.0, 10.0, 300.0, 5_000.0, 65_536.0, 262_144.0];

/// A number no farther from zero than that: of thousandths, of the grid's halves and about
/// them, of any fraction and any size, tiny, whole, zero.
fn number(rng: &mut Rng, reach: f64, steps: f64) -> f64 {
    let most = reach as i32;
    match rng.below(8) {
        0 | 1 => {
            f64::from(rng.between(-1_000 * most.min(2_000_000), 1_000 * most.min(2_000_000)))
                / 1_000.0
        }
        2 | 3 => {
            let cells = (reach * steps).min(1e9) as i32;
            let half = (f64::from(rng.between(0, cells.max(1) - 1)) + 0.5) / steps;
            let values = about(half);
            rng.pick(&values)
        }
        4 => {
            let sign = rng.word() & 1 << 63;
            let exponent = 1_022 - rng.below(70) as u64;
            reach * f64::from_bits(sign | exponent << 52 | rng.word() >> 12)
        }
        5 => {
            let tiny = f64::from_bits(rng.word() >> rng.pick(&[11, 12, 13, 40, 60]) & !(0x7 << 60));
            let tiny = if tiny.is_finite() && tiny < 1.0 {
                tiny
            } else {
                1e-310
            };
            rng.pick(&[tiny, -tiny])
        }
        6 => f64::from(rng.between(-most, most)),
        _ => rng.pick(&[0.0, -0.0, reach, -reach]),
    }
}

fn good_frame(rng: &mut Rng, reach: f64) -> Frame {
    let steps = power(rng.below(11) as i32);
    let (x, y) = (number(rng, reach, steps), number(rng, reach, steps));
    match rng.below(4) {
        0 => frame(0.0, -0.0, steps),
        _ => frame(x, y, steps),
    }
}

/// A path of so many corners that is taken, with exact room. A long one has no relative lines
/// but short ones.
pub fn of_corners(rng: &mut Rng, corners: usize) -> Import {
    let reach = rng.pick(&REACHES);
    let frame = good_frame(rng, reach);
    let steps = f64::from_bits(frame.steps);
    let part = if corners > 16 { 16_384.0 } else { 16.0 };
    let mut lines = Vec::new();
    for _ in 1..corners {
        let kind = rng.pick(&LINES);
        let [x, y] = [0, 1].map(|_| match kind {
            RELATIVE_LINE => number(rng, reach, steps) / part,
            _ => number(rng, reach, steps),
        });
        lines.push((kind, x, y));
    }
    let from = (number(rng, reach, steps), number(rng, reach, steps));
    drawn(rng, from, &lines, frame)
}

/// Mostly of few corners.
fn good(rng: &mut Rng) -> Import {
    let corners = rng.pick(&[1, 1, 2, 3, 3, 4, 5, 6, 8, 12]);
    of_corners(rng, corners)
}

// ---- damaged ones

/// A way to damage a good path. Where there are two they are taken in this order, so that none
/// mends the other.
#[derive(Debug, Clone, Copy, PartialEq, Eq, PartialOrd, Ord)]
pub enum Harm {
    /// 7.
    Long,
    /// 2.
    OffGrid,
    /// From here to `Empty` 14.
    Steps,
    Origin,
    Past,
    NotFinite,
    NoMove,
    NoClose,
    MoveAgain,
    CloseAgain,
    BeforeMove,
    BehindClose,
    Unknown,
    Empty,
    /// 21.
    Room,
}

pub const HARMS: [Harm; 15] = [
    Harm::Long,
    Harm::OffGrid,
    Harm::Steps,
    Harm::Origin,
    Harm::Past,
    Harm::NotFinite,
    Harm::NoMove,
    Harm::NoClose,
    Harm::MoveAgain,
    Harm::CloseAgain,
    Harm::BeforeMove,
    Harm::BehindClose,
    Harm::Unknown,
    Harm::Empty,
    Harm::Room,
];

impl Harm {
    pub fn fault(self) -> Fault {
        match self {
            Harm::Long => 7,
            Harm::OffGrid => 2,
            Harm::Room => 21,
            _ => 14,
        }
    }
}

/// The order in which faults are told.
pub const ORDER: [Fault; 4] = [14, 7, 2, 21];

/// A good path with these damages.
pub fn harmed(rng: &mut Rng, harms: &[Harm]) -> Import {
    let mut harms = harms.to_vec();
    harms.sort();
    harms.dedup();
    let mut import = good(rng);
    for &harm in &harms {
        put(rng, &mut import, harm);
    }
    let n = needed(&import.path);
    import.lent = match harms.contains(&Harm::Room) {
        true if n > 0 => rng.pick(&[n - 1, n - 1, n - 2, n / 2, 0, rng.clone().below(n)]),
        true => 0,
        false => rng.pick(&[n, n, n, n + 1, n + 2, n + 3, n + 60]),
    };
    import
}

/// Step counts that are none.
fn wrong_steps(rng: &mut Rng) -> u64 {
    let near = [about(1.0), about(2.0), about(1_024.0)].concat();
    let wrong = |v: &f64| !steps().any(|steps| steps == *v);
    let mut some: Vec<f64> = near.into_iter().filter(wrong).collect();
    some.extend([
        0.0, -0.0, 0.5, -0.5, 3.0, 6.0, 1_000.0, 2_048.0, 1e300, 1e-310,
    ]);
    match rng.below(4) {
        0 => not_finite(rng),
        _ => rng.pick(&some).to_bits(),
    }
}

/// The places of the numbers that a path carries: of an item, x (false) or y (true).
fn carried(path: &[Item]) -> Vec<(usize, bool)> {
    let of = |(i, item): (usize, &Item)| match item.kind {
        MOVE | LINE | RELATIVE_LINE => vec![(i, false), (i, true)],
        HORIZONTAL => vec![(i, false)],
        VERTICAL => vec![(i, true)],
        _ => vec![],
    };
    path.iter().enumerate().flat_map(of).collect()
}

/// One of the numbers that a path carries, where there is one, becomes another.
fn changed(rng: &mut Rng, path: &mut [Item], to: impl Fn(&mut Rng, u64) -> u64) {
    let places = carried(path);
    if places.is_empty() {
        return;
    }
    let (at, y) = rng.pick(&places);
    let bits = to(rng, path[at].kind);
    match y {
        false => path[at].x = bits,
        true => path[at].y = bits,
    }
}

/// Past the range, also when it is added to a point.
fn past(rng: &mut Rng, kind: u64) -> u64 {
    let far = rng.pick(&[4.0 * END, 1e10, 1e300, f64::MAX]);
    let value = match kind {
        RELATIVE_LINE => far,
        _ => rng.pick(&[f64::from_bits(END.to_bits() + 1), END + 1.0, 2.0 * END, far]),
    };
    rng.pick(&[value, -value]).to_bits()
}

/// An item of one of these kinds.
fn of_kinds(rng: &mut Rng, kinds: &[u64]) -> Item {
    let kind = rng.pick(kinds);
    let (x, y) = (number(rng, 10.0, 1.0), number(rng, 10.0, 1.0));
    item(rng, kind, x, y)
}

fn put(rng: &mut Rng, import: &mut Import, harm: Harm) {
    let Import { path, frame, .. } = import;
    match harm {
        Harm::Long => {
            let corners = CONTOUR + 1 + rng.pick(&[0, 0, 0, 1, 40]);
            while path.len() < corners + 1 {
                let more = of_kinds(rng, &LINES[..3]);
                path.insert(1, more);
            }
        }
        Harm::OffGrid => {
            let far = rng
                .pick(&[power(31), -power(31), 1e10, -1e300, f64::MAX])
                .to_bits();
            match rng.below(2) {
                0 => frame.x = far,
                _ => frame.y = far,
            }
        }
        Harm::Steps => frame.steps = wrong_steps(rng),
        Harm::Origin => match rng.below(2) {
            0 => frame.x = not_finite(rng),
            _ => frame.y = not_finite(rng),
        },
        Harm::Past => changed(rng, path, past),
        Harm::NotFinite => changed(rng, path, |rng, _| not_finite(rng)),
        Harm::NoMove => match rng.below(2) {
            0 => path[0].kind = rng.pick(&[LINE, RELATIVE_LINE]),
            _ => drop(path.remove(0)),
        },
        Harm::NoClose => drop(path.pop()),
        Harm::MoveAgain => {
            let again = of_kinds(rng, &[MOVE]);
            path.insert((1 + rng.below(path.len().max(1))).min(path.len()), again);
        }
        Harm::CloseAgain => {
            let again = of_kinds(rng, &[CLOSE]);
            path.insert(rng.below(path.len().max(1)), again);
        }
        Harm::BeforeMove => path.insert(0, of_kinds(rng, &[LINE, VERTICAL, RELATIVE_LINE, CLOSE])),
        Harm::BehindClose => path.push(of_kinds(rng, &[MOVE, LINE, HORIZONTAL, RELATIVE_LINE])),
        Harm::Unknown => {
            let at = rng.below(path.len().max(1));
            let kind = rng.pick(&UNKNOWN);
            match path.get_mut(at) {
                Some(item) => item.kind = kind,
                None => path.push(of_kinds(rng, &[kind])),
            }
        }
        Harm::Empty => path.clear(),
        Harm::Room => {}
    }
}

/// How often each two damages are put together.
const TIMES: usize = 20;

/// Each damage alone and every two together.
fn damaged(rng: &mut Rng) -> Vec<Import> {
    let mut out = Vec::new();
    for (i, &a) in HARMS.iter().enumerate() {
        for &b in &HARMS[i..] {
            out.extend((0..TIMES).map(|_| harmed(rng, &[a, b])));
        }
    }
    out
}

// ---- random ones

/// Good ones, ones with a fault or with two, ones of numbers about every edge, and of any bits.
pub fn any(rng: &mut Rng) -> Import {
    match rng.below(8) {
        0 => of_any_bits(rng),
        1 | 2 => of_edges(rng),
        3 => wide(rng),
        _ => {
            let mut harms = Vec::new();
            for _ in 0..2 {
                match rng.below(48) {
                    0..=4 => harms.push(rng.pick(&HARMS[1..])),
                    5 | 6 => harms.push(Harm::OffGrid),
                    7..=11 => harms.push(Harm::Room),
                    12 if rng.once_in(4) => harms.push(Harm::Long),
                    _ => {}
                }
            }
            harmed(rng, &harms)
        }
    }
}

/// A path in order whose numbers, and whose frame, come from these, lent some room.
fn ordered(rng: &mut Rng, frame: Frame, number: impl Fn(&mut Rng) -> f64) -> Import {
    let corners = 1 + rng.below(4);
    let mut lines = Vec::new();
    for _ in 1..corners {
        lines.push((rng.pick(&LINES), number(rng), number(rng)));
    }
    let from = (number(rng), number(rng));
    let mut import = drawn(rng, from, &lines, frame);
    if rng.once_in(8) {
        import.lent = rng.below(import.lent + 2);
    }
    import
}

/// Any bits, in the numbers and sometimes in kinds and step count.
fn of_any_bits(rng: &mut Rng) -> Import {
    let steps = match rng.below(4) {
        0 => f64::from_bits(rng.word()),
        _ => power(rng.below(11) as i32),
    };
    let [x, y] = [0, 1].map(|_| f64::from_bits(rng.word()));
    // some of them small enough for points
    let few = |rng: &mut Rng| {
        let bits = rng.word();
        f64::from_bits(match rng.below(8) {
            0 => bits,
            _ => bits & !(1 << 62),
        })
    };
    let frame = match rng.below(3) {
        0 => frame(x, y, steps),
        _ => frame(few(rng), few(rng), steps),
    };
    let mut import = ordered(rng, frame, few);
    if rng.once_in(8) {
        let at = rng.below(import.path.len());
        import.path[at].kind = rng.word() >> rng.pick(&[0, 32, 61]);
    }
    import
}

/// Numbers about halves, both ranges' ends and the least ones, in every place.
fn of_edges(rng: &mut Rng) -> Import {
    let steps = power(rng.below(11) as i32);
    let edge = move |rng: &mut Rng| {
        let value = match rng.below(8) {
            0 => END,
            1 => (power(30) - rng.pick(&[0.0, 0.5, 1.0, 1.5])) / steps,
            2 => rng.pick(&[power(-1_022), f64::from_bits(3), power(-33), power(-53)]),
            3 => power(20 - rng.below(60) as i32),
            _ => (f64::from(rng.between(0, 5_000)) + 0.5) / steps,
        };
        let values = about(value);
        rng.pick(&values)
    };
    let frame = match rng.below(3) {
        0 => frame(0.0, 0.0, steps),
        _ => frame(edge(rng), edge(rng), steps),
    };
    ordered(rng, frame, edge)
}

/// Points anywhere in the range by an origin that is far off, so that many differences are
/// rounded and some lead off the grid.
fn wide(rng: &mut Rng) -> Import {
    let fraction = |rng: &mut Rng| {
        let sign = rng.word() & 1 << 63;
        let exponent = 1_022 - rng.below(3) as u64;
        f64::from_bits(sign | exponent << 52 | rng.word() >> 12)
    };
    let steps = power(rng.below(11) as i32);
    let reach = power(30) / steps;
    let [x, y] = [0, 1].map(|_| reach * fraction(rng));
    ordered(rng, frame(x, y, steps), move |rng| END * fraction(rng))
}

#[cfg(test)]
mod tests {
    use super::*;
    use crate::first_of;
    use judge::exact::Exact;
    use judge::path::{imported, points, Grid};
    use std::collections::BTreeMap;

    fn fault(import: &Import) -> Fault {
        let Import { path, frame, lent } = import;
        imported(path, frame, *lent).err().unwrap_or(0)
    }

    fn tally(all: impl Iterator<Item = Import>) -> BTreeMap<Fault, usize> {
        let mut out = BTreeMap::new();
        for import in all {
            *out.entry(fault(&import)).or_default() += 1;
        }
        out
    }

    #[test]
    fn each_damage_alone_and_every_two_together_tell_the_first() {
        let mut rng = Rng::new(151);
        for &a in &HARMS {
            for &b in &HARMS {
                for _ in 0..20 {
                    let import = harmed(&mut rng, &[a, b]);
                    let told = first_of(&ORDER, &[a.fault(), b.fault()]);
                    assert_eq!(fault(&import), told, "{a:?} {b:?}: {import:?}");
                }
            }
        }
    }

    #[test]
    fn good_paths_are_taken() {
        let mut rng = Rng::new(152);
        for _ in 0..5_000 {
            let import = good(&mut rng);
            assert_eq!(fault(&import), 0, "{import:?}");
            assert_eq!(fault(&harmed(&mut rng, &[])), 0);
        }
        for corners in [1, 2, 17, 1_000, CONTOUR] {
            assert_eq!(fault(&of_corners(&mut rng, corners)), 0);
        }
    }

    #[test]
    fn short_lists_are_all_kinds_and_some_are_paths() {
        let all: Vec<Import> = small().collect();
        assert_eq!(all.len(), (0..=5).map(|n| 7usize.pow(n)).sum());
        // between the move and the close up to three lines of four kinds
        assert_eq!(tally(all.into_iter())[&0], 1 + 4 + 16 + 64);
    }

    #[test]
    fn rooms_and_lengths() {
        let mut rng = Rng::new(153);
        let rooms = tally(roomed(&mut rng).into_iter());
        assert_eq!(rooms, BTreeMap::from([(0, 45), (21, 45)]));
        let long = long(&mut rng);
        let faults: Vec<Fault> = long.iter().map(fault).collect();
        for (i, told) in faults.chunks(9).enumerate() {
            match i {
                0..=2 => assert_eq!(told, [0, 21, 2, 2, 14, 14, 14, 14, 21]),
                _ => assert_eq!(told, [7, 7, 7, 7, 14, 14, 14, 14, 7]),
            }
        }
    }

    /// Halves, ends and extremes are taken and refused as their names say.
    #[test]
    fn numbers_about_the_edges() {
        let mut rng = Rng::new(154);
        let all = at_numbers(&mut rng);
        let told = tally(all.iter().cloned());
        for fault in [0, 2, 14] {
            assert!(told[&fault] > 500, "{told:?}");
        }
        let sums = tally(summed(&mut rng).into_iter());
        assert!(sums[&0] > 100 && sums[&14] > 20, "{sums:?}");
        // whether a product is a half of both signs, and next to one
        let mut met = [0; 4];
        for Import { path, frame, .. } in &all {
            let (Some(points), Some(grid)) = (points(path), Grid::of(frame)) else {
                continue;
            };
            for [x, _] in points {
                let exact = x.minus(grid.origin[0]).doubled(grid.power);
                let Some(rounded) = Exact::of(x.minus(grid.origin[0]).nearest()) else {
                    continue;
                };
                let twice = rounded.doubled(grid.power).doubled(1);
                let whole = twice.nearest_whole().filter(|w| w % 2 != 0);
                if let Some(w) = whole.filter(|&w| Exact::whole(w) == twice) {
                    met[usize::from(w < 0)] += 1;
                    met[2] +=
                        usize::from(exact.doubled(1) != twice && exact.doubled(1).within(twice));
                    met[3] +=
                        usize::from(exact.doubled(1) != twice && twice.within(exact.doubled(1)));
                }
            }
        }
        assert!(met.iter().all(|&times| times > 100), "{met:?}");
    }

    /// The paper's bound: one half and 2^−23 of the exact difference times the step count.
    #[test]
    fn what_is_taken_lies_within_the_bound() {
        let mut rng = Rng::new(155);
        let bound = Exact::part(1).plus(Exact::part(23));
        let (mut taken, mut past_half) = (0, 0);
        for Import { path, frame, lent } in asked(&mut rng, 3_000).filter(|i| i.path.len() < 99) {
            let Ok(corners) = imported(&path, &frame, lent) else {
                continue;
            };
            taken += 1;
            let (points, grid) = (points(&path).unwrap(), Grid::of(&frame).unwrap());
            for ([x, y], corner) in points.into_iter().zip(corners) {
                let exact = |v: Exact, k: usize| v.minus(grid.origin[k]).doubled(grid.power);
                let off = [
                    exact(x, 0).minus(Exact::whole(corner.0.into())),
                    exact(y, 1).minus(Exact::whole(corner.1.into())),
                ];
                assert!(
                    off.iter().all(|off| off.within(bound)),
                    "{path:?} {frame:?}"
                );
                past_half += off.iter().filter(|off| !off.within(Exact::part(1))).count();
            }
        }
        assert!(taken > 5_000 && past_half > 100, "{taken} {past_half}");
    }

    #[test]
    fn every_fault_occurs_often_before_the_random_ones_and_in_them() {
        let mut rng = Rng::new(156);
        let before = tally(asked(&mut rng, 0));
        let after = tally((0..10_000).map(|_| any(&mut rng)));
        for told in [before, after] {
            for fault in [0, 14, 7, 2, 21] {
                assert!(told[&fault] >= 20, "{told:?}");
            }
        }
    }

    /// What is not carried is of every kind, and what is not a number is too.
    #[test]
    fn idle_numbers_hold_anything() {
        let mut rng = Rng::new(157);
        let idle: Vec<u64> = (0..2_000).map(|_| idle(&mut rng)).collect();
        let quiet = |bits: &&u64| f64::from_bits(**bits).is_nan() && *bits & 1 << 51 != 0;
        let signalling = |bits: &&u64| f64::from_bits(**bits).is_nan() && *bits & 1 << 51 == 0;
        assert!(idle.iter().filter(quiet).count() > 20);
        assert!(idle.iter().filter(signalling).count() > 20);
        assert!(idle.iter().any(|&bits| f64::from_bits(bits).is_infinite()));
        assert!((0..100).all(|_| !judge::exact::is_finite(not_finite(&mut rng))));
    }
}
