//! The calls on walks: one walk begun, its point, its edge, its advance, a walk
//! stepped; a pair begun, a pair stepped, and a pair stepped to its end. Beside the
//! Rust's `Walk` and `ConvexSum`; refusals beside the judge. The lent contours, and
//! what stands about them, must stay as they were.

use crate::entry::{simpler_numbers, EntryPoint};
use crate::lent::{Handed, Kept, Lent};
use i_triangle::int::expose::{self, Operation};
use i_triangle::int::reach;
use inputs::rng::Rng;
use inputs::table_calls::Inputs;
use inputs::walk_calls::{begins, steps, twos, twos_at, Begin, Place, Step, Two, TwoAt};
use judge::walk;
use judge::{Fault, Point};
use std::fmt::Debug;

// ---- what the boundary tells

#[repr(C)]
#[derive(Debug, Clone, Copy, PartialEq, Eq)]
pub struct ToldPlace {
    pub fault: u32,
    pub place: Place,
}

#[repr(C)]
#[derive(Debug, Clone, Copy, PartialEq, Eq)]
pub struct ToldPoint {
    pub fault: u32,
    pub x: i32,
    pub y: i32,
}

#[repr(C)]
#[derive(Debug, Clone, Copy, PartialEq, Eq)]
pub struct ToldEdge {
    pub fault: u32,
    pub x: i64,
    pub y: i64,
}

#[repr(C)]
#[derive(Debug, Clone, Copy, PartialEq, Eq)]
pub struct ToldStep {
    pub fault: u32,
    pub x: i64,
    pub y: i64,
    pub place: Place,
}

#[repr(C)]
#[derive(Debug, Clone, Copy, PartialEq, Eq)]
pub struct Places {
    pub a: Place,
    pub b: Place,
}

#[repr(C)]
#[derive(Debug, Clone, Copy, PartialEq, Eq)]
pub struct ToldPair {
    pub fault: u32,
    pub places: Places,
}

/// `corners` is 1 where a corner is handed out, 0 at the end.
#[repr(C)]
#[derive(Debug, Clone, Copy, PartialEq, Eq)]
pub struct ToldNext {
    pub fault: u32,
    pub corners: u32,
    pub x: i32,
    pub y: i32,
    pub places: Places,
}

/// The corners handed out until the end is told, and the walks then.
#[derive(Debug, Clone, PartialEq, Eq)]
pub struct ToldContour {
    pub fault: u32,
    pub contour: Vec<Point>,
    pub left: [u16; 2],
}

/// A call on one lent contour.
fn on_contour<T>(flat: &[i32], call: impl Fn(Handed<i32>) -> T) -> Kept<T> {
    let mut lent = Lent::list(flat);
    let told = call(lent.handed());
    let kept = lent.holds(flat);
    Kept { told, kept }
}

/// A call on two.
fn on_two<T>(two: &Two, call: impl Fn(Handed<i32>, Handed<i32>) -> T) -> Kept<T> {
    let (mut left, mut right) = (Lent::list(&two.left), Lent::list(&two.right));
    let told = call(left.handed(), right.handed());
    let kept = left.holds(&two.left) && right.holds(&two.right);
    Kept { told, kept }
}

// ---- what the Rust says, refusals by the judge

fn corners(flat: &[i32]) -> Vec<Point> {
    flat.chunks_exact(2).map(|p| (p[0], p[1])).collect()
}

fn exposed(at: Place) -> reach::Place {
    let at = at.judged();
    reach::Place {
        index: at.index,
        reverse: at.reverse,
        remaining: at.remaining,
        reflected: at.reflected,
        segment: at.segment,
    }
}

/// The Rust's place; where it is no segment it has these ends.
fn passed(at: reach::Place, ends: (u16, u16)) -> Place {
    let at = walk::Place {
        index: at.index,
        reverse: at.reverse,
        remaining: at.remaining,
        reflected: at.reflected,
        segment: at.segment,
    };
    Place::of(at, ends)
}

/// A walk begun stands between its ends; where it is no segment, both are where it
/// begins, which the papers leave free.
fn begun(flat: &[i32], reflected: bool) -> Place {
    let at = reach::begin(&corners(flat), reflected).expect("not empty");
    passed(at, (at.index as u16, at.index as u16))
}

pub fn begin(input: &Begin) -> ToldPlace {
    let fault = walk::begun(&input.flat, input.reflected);
    let place = match fault {
        0 => begun(&input.flat, input.reflected),
        _ => Place::NOWHERE,
    };
    ToldPlace { fault, place }
}

pub fn point(input: &Step) -> ToldPoint {
    let fault = walk::point(&input.flat, input.at.judged());
    let (x, y) = match fault {
        0 => reach::point_at(&corners(&input.flat), exposed(input.at)),
        _ => (0, 0),
    };
    ToldPoint { fault, x, y }
}

pub fn edge(input: &Step) -> ToldEdge {
    let ToldStep { fault, x, y, .. } = next(input);
    ToldEdge { fault, x, y }
}

pub fn advance(input: &Step) -> ToldPlace {
    let ToldStep { fault, place, .. } = next(input);
    ToldPlace { fault, place }
}

pub fn next(input: &Step) -> ToldStep {
    let fault = walk::stepped(&input.flat, input.at.judged());
    let ((x, y), place) = match fault {
        0 => {
            let (corners, at) = (corners(&input.flat), exposed(input.at));
            let ends = (input.at.start, input.at.end);
            (
                reach::edge_at(&corners, at),
                passed(reach::advanced(&corners, at), ends),
            )
        }
        _ => ((0, 0), input.at),
    };
    ToldStep { fault, x, y, place }
}

fn pair_begun(input: &Two, reflected: bool) -> ToldPair {
    let fault = walk::pair_begun(&input.left, &input.right, reflected);
    let places = match fault {
        0 => Places {
            a: begun(&input.left, false),
            b: begun(&input.right, reflected),
        },
        _ => Places {
            a: Place::NOWHERE,
            b: Place::NOWHERE,
        },
    };
    ToldPair { fault, places }
}

pub fn pair_new(input: &Two) -> ToldPair {
    pair_begun(input, false)
}

pub fn pair_difference(input: &Two) -> ToldPair {
    pair_begun(input, true)
}

pub fn pair_next(input: &TwoAt) -> ToldNext {
    let (left, right) = (&input.two.left, &input.two.right);
    let (a, b) = (input.a, input.b);
    let fault = walk::pair_step(left, a.judged(), right, b.judged());
    if fault != 0 {
        return ToldNext {
            fault,
            corners: 0,
            x: 0,
            y: 0,
            places: Places { a, b },
        };
    }
    let (emitted, after_a, after_b) =
        reach::pair_next(&corners(left), exposed(a), &corners(right), exposed(b));
    let (x, y) = emitted.unwrap_or((0, 0));
    ToldNext {
        fault,
        corners: u32::from(emitted.is_some()),
        x,
        y,
        places: Places {
            a: passed(after_a, (a.start, a.end)),
            b: passed(after_b, (b.start, b.end)),
        },
    }
}

/// The Rust's pair, drawn to its end; both walks have then no step left.
fn whole(input: &Two, operation: Operation) -> ToldContour {
    let reflected = operation == Operation::Difference;
    let fault = walk::pair_begun(&input.left, &input.right, reflected);
    let contour = match fault {
        0 => {
            let (left, right) = (corners(&input.left), corners(&input.right));
            expose::one_pair(operation, &left, &right).expect("neither is empty")
        }
        _ => Vec::new(),
    };
    ToldContour {
        fault,
        contour,
        left: [0, 0],
    }
}

/// A pair begun and stepped by these functions until it tells the end.
fn stepped_to_end(
    input: &Two,
    begin: impl Fn(Handed<i32>, Handed<i32>) -> ToldPair,
    next: impl Fn(Handed<i32>, Handed<i32>, Places) -> ToldNext,
) -> Kept<ToldContour> {
    let Kept { told, mut kept } = on_two(input, begin);
    let (mut contour, mut at) = (Vec::new(), told.places);
    while told.fault == 0 {
        let step = on_two(input, |left, right| next(left, right, at));
        kept &= step.kept && step.told.fault == 0;
        at = step.told.places;
        if step.told.corners == 0 {
            break;
        }
        contour.push((step.told.x, step.told.y));
    }
    let left = [at.a.remaining, at.b.remaining];
    let fault = told.fault;
    let told = ToldContour {
        fault,
        contour,
        left,
    };
    Kept { told, kept }
}

// ---- the entry points

/// A call on walks beside the Rust.
pub struct OfWalks<I, T> {
    /// What it is called: places beside slices and walks that hold theirs are asked alike.
    pub name: &'static str,
    faults: &'static [Fault],
    inputs: fn(&mut Rng, u64) -> Inputs<'_, I>,
    rattle: Box<dyn Fn(&I) -> Kept<T>>,
    rust: fn(&I) -> T,
    fault: fn(&T) -> Fault,
    simpler: fn(&I) -> Vec<I>,
}

const BEGUN: &[Fault] = &[7, 2, 8, 20];
const STEPPED: &[Fault] = &[7, 23, 2];

/// Each is given the Rattle function that it asks.
pub fn begin_beside<F>(rattle: F) -> OfWalks<Begin, ToldPlace>
where
    F: Fn(Handed<i32>, bool) -> ToldPlace + 'static,
{
    OfWalks {
        name: "walk begin",
        faults: BEGUN,
        inputs: begins,
        rattle: Box::new(move |q: &Begin| on_contour(&q.flat, |lent| rattle(lent, q.reflected))),
        rust: begin,
        fault: |told| told.fault,
        simpler: simpler_begin,
    }
}

fn step_beside<T>(
    name: &'static str,
    rattle: impl Fn(Handed<i32>, Place) -> T + 'static,
    rust: fn(&Step) -> T,
    fault: fn(&T) -> Fault,
) -> OfWalks<Step, T> {
    OfWalks {
        name,
        faults: STEPPED,
        inputs: steps,
        rattle: Box::new(move |q: &Step| on_contour(&q.flat, |lent| rattle(lent, q.at))),
        rust,
        fault,
        simpler: simpler_step,
    }
}

pub fn point_beside<F>(rattle: F) -> OfWalks<Step, ToldPoint>
where
    F: Fn(Handed<i32>, Place) -> ToldPoint + 'static,
{
    step_beside("walk point", rattle, point, |told| told.fault)
}

pub fn edge_beside<F>(rattle: F) -> OfWalks<Step, ToldEdge>
where
    F: Fn(Handed<i32>, Place) -> ToldEdge + 'static,
{
    step_beside("walk edge", rattle, edge, |told| told.fault)
}

pub fn advance_beside<F>(rattle: F) -> OfWalks<Step, ToldPlace>
where
    F: Fn(Handed<i32>, Place) -> ToldPlace + 'static,
{
    step_beside("walk advance", rattle, advance, |told| told.fault)
}

pub fn next_beside<F>(rattle: F) -> OfWalks<Step, ToldStep>
where
    F: Fn(Handed<i32>, Place) -> ToldStep + 'static,
{
    step_beside("walk next", rattle, next, |told| told.fault)
}

fn pair_beside<F>(
    name: &'static str,
    rattle: F,
    rust: fn(&Two) -> ToldPair,
) -> OfWalks<Two, ToldPair>
where
    F: Fn(Handed<i32>, Handed<i32>) -> ToldPair + 'static,
{
    OfWalks {
        name,
        faults: BEGUN,
        inputs: twos,
        rattle: Box::new(move |q: &Two| on_two(q, &rattle)),
        rust,
        fault: |told| told.fault,
        simpler: simpler_two,
    }
}

pub fn pair_new_beside<F>(rattle: F) -> OfWalks<Two, ToldPair>
where
    F: Fn(Handed<i32>, Handed<i32>) -> ToldPair + 'static,
{
    pair_beside("pair new", rattle, pair_new)
}

pub fn pair_difference_beside<F>(rattle: F) -> OfWalks<Two, ToldPair>
where
    F: Fn(Handed<i32>, Handed<i32>) -> ToldPair + 'static,
{
    pair_beside("pair difference", rattle, pair_difference)
}

pub fn pair_next_beside<F>(rattle: F) -> OfWalks<TwoAt, ToldNext>
where
    F: Fn(Handed<i32>, Handed<i32>, Places) -> ToldNext + 'static,
{
    let asked = move |q: &TwoAt| {
        let at = Places { a: q.a, b: q.b };
        on_two(&q.two, |left, right| rattle(left, right, at))
    };
    OfWalks {
        name: "pair next",
        faults: STEPPED,
        inputs: twos_at,
        rattle: Box::new(asked),
        rust: pair_next,
        fault: |told| told.fault,
        simpler: simpler_two_at,
    }
}

fn whole_beside(
    name: &'static str,
    begin: impl Fn(Handed<i32>, Handed<i32>) -> ToldPair + 'static,
    next: impl Fn(Handed<i32>, Handed<i32>, Places) -> ToldNext + 'static,
    rust: fn(&Two) -> ToldContour,
) -> OfWalks<Two, ToldContour> {
    OfWalks {
        name,
        faults: BEGUN,
        inputs: twos,
        rattle: Box::new(move |input| stepped_to_end(input, &begin, &next)),
        rust,
        fault: |told| told.fault,
        simpler: simpler_two,
    }
}

pub fn sum_to_end_beside<F, G>(begin: F, next: G) -> OfWalks<Two, ToldContour>
where
    F: Fn(Handed<i32>, Handed<i32>) -> ToldPair + 'static,
    G: Fn(Handed<i32>, Handed<i32>, Places) -> ToldNext + 'static,
{
    whole_beside("sum to its end", begin, next, |input| {
        whole(input, Operation::Sum)
    })
}

pub fn difference_to_end_beside<F, G>(begin: F, next: G) -> OfWalks<Two, ToldContour>
where
    F: Fn(Handed<i32>, Handed<i32>) -> ToldPair + 'static,
    G: Fn(Handed<i32>, Handed<i32>, Places) -> ToldNext + 'static,
{
    whole_beside("difference to its end", begin, next, |input| {
        whole(input, Operation::Difference)
    })
}

/// A contour is many numbers: a twentieth of the count.
const SHARE: u64 = 20;

impl<I: Clone + Debug, T: PartialEq + Debug> EntryPoint for OfWalks<I, T> {
    type Input = I;
    type Answer = Kept<T>;

    fn name(&self) -> &'static str {
        self.name
    }

    fn faults(&self) -> &'static [u32] {
        self.faults
    }

    fn inputs<'a>(&self, rng: &'a mut Rng, count: u64) -> Inputs<'a, I> {
        (self.inputs)(rng, count / SHARE)
    }

    fn rattle(&self, input: &I) -> Kept<T> {
        (self.rattle)(input)
    }

    fn rust(&self, input: &I) -> Kept<T> {
        Kept::all((self.rust)(input))
    }

    fn fault(&self, answer: &Kept<T>) -> u32 {
        (self.fault)(&answer.told)
    }

    fn simpler(&self, input: &I) -> Vec<I> {
        (self.simpler)(input)
    }

    fn show(&self, input: &I) -> String {
        format!("{input:?}")
    }
}

// ---- simpler inputs: fewer corners, numbers nearer to 0, places nearer to the start

fn simpler_flat(flat: &[i32]) -> Vec<Vec<i32>> {
    let piece = 2 * flat.len().div_ceil(64).max(1);
    let mut out: Vec<Vec<i32>> = (0..flat.len())
        .step_by(piece)
        .map(|at| [&flat[..at], &flat[flat.len().min(at + piece)..]].concat())
        .collect();
    if piece == 2 {
        for (i, &value) in flat.iter().enumerate() {
            out.extend(simpler_numbers(value).into_iter().map(|value| {
                let mut changed = flat.to_vec();
                changed[i] = value;
                changed
            }));
        }
    }
    out
}

fn simpler_place(at: Place) -> Vec<Place> {
    let nearer = |n: u16| {
        [0, n / 2, n.saturating_sub(1)]
            .into_iter()
            .filter(move |&m| m < n)
    };
    let mut out: Vec<Place> = Vec::new();
    out.extend(nearer(at.index).map(|index| Place { index, ..at }));
    out.extend(nearer(at.remaining).map(|remaining| Place { remaining, ..at }));
    out.extend(nearer(at.start).map(|start| Place { start, ..at }));
    out.extend(nearer(at.end).map(|end| Place { end, ..at }));
    for simpler in [
        Place {
            reverse: false,
            ..at
        },
        Place {
            reflected: false,
            ..at
        },
        Place {
            segment: false,
            ..at
        },
    ] {
        if simpler != at {
            out.push(simpler);
        }
    }
    out
}

fn simpler_begin(input: &Begin) -> Vec<Begin> {
    let with = |flat| Begin {
        flat,
        reflected: input.reflected,
    };
    simpler_flat(&input.flat).into_iter().map(with).collect()
}

fn simpler_step(input: &Step) -> Vec<Step> {
    let flats = simpler_flat(&input.flat)
        .into_iter()
        .map(|flat| Step { flat, at: input.at });
    let places = simpler_place(input.at).into_iter().map(|at| Step {
        flat: input.flat.clone(),
        at,
    });
    flats.chain(places).collect()
}

fn simpler_two(input: &Two) -> Vec<Two> {
    let lefts = simpler_flat(&input.left).into_iter().map(|left| Two {
        left,
        right: input.right.clone(),
    });
    let rights = simpler_flat(&input.right).into_iter().map(|right| Two {
        left: input.left.clone(),
        right,
    });
    lefts.chain(rights).collect()
}

fn simpler_two_at(input: &TwoAt) -> Vec<TwoAt> {
    let twos = simpler_two(&input.two).into_iter().map(|two| TwoAt {
        two,
        ..input.clone()
    });
    let firsts = simpler_place(input.a)
        .into_iter()
        .map(|a| TwoAt { a, ..input.clone() });
    let seconds = simpler_place(input.b)
        .into_iter()
        .map(|b| TwoAt { b, ..input.clone() });
    twos.chain(firsts).chain(seconds).collect()
}

/// Right functions pass, and each deliberate fault is caught and made small.
#[cfg(test)]
mod tests {
    use super::*;
    use crate::entry::{run, Report};
    use crate::lent::overruns::{self, plant, seen, At};

    const COUNT: u64 = 20_000;

    // ---- functions on an input as the entry points ask them. Safe: the memory is lent.

    fn two_of(left: Handed<i32>, right: Handed<i32>) -> Two {
        unsafe {
            Two {
                left: left.slice().to_vec(),
                right: right.slice().to_vec(),
            }
        }
    }

    fn begin_asked(f: fn(&Begin) -> ToldPlace) -> impl Fn(Handed<i32>, bool) -> ToldPlace {
        move |contour, reflected| {
            let flat = unsafe { contour.slice() }.to_vec();
            f(&Begin { flat, reflected })
        }
    }

    fn step_asked<T>(f: fn(&Step) -> T) -> impl Fn(Handed<i32>, Place) -> T {
        move |contour, at| {
            let flat = unsafe { contour.slice() }.to_vec();
            f(&Step { flat, at })
        }
    }

    fn two_asked(f: fn(&Two) -> ToldPair) -> impl Fn(Handed<i32>, Handed<i32>) -> ToldPair {
        move |left, right| f(&two_of(left, right))
    }

    fn next_asked(
        f: fn(&TwoAt) -> ToldNext,
    ) -> impl Fn(Handed<i32>, Handed<i32>, Places) -> ToldNext {
        move |left, right, at| {
            f(&TwoAt {
                two: two_of(left, right),
                a: at.a,
                b: at.b,
            })
        }
    }

    #[test]
    fn right_functions_pass() {
        let new = || two_asked(pair_new);
        let difference = || two_asked(pair_difference);
        let step = || next_asked(pair_next);
        for report in [
            run(&begin_beside(begin_asked(begin)), 1, COUNT),
            run(&point_beside(step_asked(point)), 1, COUNT),
            run(&edge_beside(step_asked(edge)), 1, COUNT),
            run(&advance_beside(step_asked(advance)), 1, COUNT),
            run(&next_beside(step_asked(next)), 1, COUNT),
            run(&pair_new_beside(new()), 1, COUNT),
            run(&pair_difference_beside(difference()), 1, COUNT),
            run(&pair_next_beside(step()), 1, COUNT),
            run(&sum_to_end_beside(new(), step()), 1, COUNT),
            run(&difference_to_end_beside(difference(), step()), 1, COUNT),
        ] {
            assert!(report.passed(), "{report}");
        }
    }

    /// Right but for a place of the contour, or about it, that is changed after the call.
    fn planted<T>(f: impl Fn(Handed<i32>, Place) -> T, at: At) -> impl Fn(Handed<i32>, Place) -> T {
        move |contour, place| {
            let told = f(contour, place);
            plant(contour, at);
            told
        }
    }

    #[test]
    fn overruns_on_one_contour_are_caught() {
        for at in overruns::ALL {
            let entry = begin_beside(move |contour, reflected| {
                let told = begin_asked(begin)(contour, reflected);
                plant(contour, at);
                told
            });
            seen(&entry, at);
            seen(&point_beside(planted(step_asked(point), at)), at);
            seen(&edge_beside(planted(step_asked(edge), at)), at);
            seen(&advance_beside(planted(step_asked(advance), at)), at);
            seen(&next_beside(planted(step_asked(next), at)), at);
        }
    }

    #[test]
    fn overruns_on_two_contours_are_caught() {
        for (at, right) in overruns::ALL
            .into_iter()
            .flat_map(|at| [(at, false), (at, true)])
        {
            let begun = move |f: fn(&Two) -> ToldPair| {
                move |l, r| {
                    let told = two_asked(f)(l, r);
                    plant(if right { r } else { l }, at);
                    told
                }
            };
            let stepped = move |l, r, places| {
                let told = next_asked(pair_next)(l, r, places);
                plant(if right { r } else { l }, at);
                told
            };
            seen(&pair_new_beside(begun(pair_new)), at);
            seen(&pair_difference_beside(begun(pair_difference)), at);
            seen(&pair_next_beside(stepped), at);
            let entry = sum_to_end_beside(begun(pair_new), next_asked(pair_next));
            seen(&entry, at);
            let entry = difference_to_end_beside(begun(pair_difference), next_asked(pair_next));
            seen(&entry, at);
        }
    }

    fn caught(report: &Report) -> &str {
        assert!(report.differ > 0 && !report.passed());
        report.smallest.as_ref().expect("a difference is shown")
    }

    /// The reflected walk begun at the lowest corner.
    #[test]
    fn a_reflected_walk_from_the_lowest_is_caught() {
        let wrong = |q: &Begin| {
            let low = Begin {
                reflected: false,
                ..q.clone()
            };
            let mut told = begin(&low);
            told.place.reflected = q.reflected && told.fault == 0;
            told
        };
        let report = run(&begin_beside(begin_asked(wrong)), 1, COUNT);
        let small = caught(&report);
        assert!(small.contains("reflected: true"), "{small}");
    }

    #[test]
    fn a_refused_walk_handed_back_moved_is_caught() {
        let wrong = |q: &Step| {
            let mut told = next(q);
            if told.fault == 23 {
                told.place.index = q.at.start;
            }
            told
        };
        let report = run(&next_beside(step_asked(wrong)), 1, COUNT);
        assert!(caught(&report).contains("fault: 23"));
    }

    #[test]
    fn a_changed_contour_is_caught() {
        let wrong = |contour: Handed<i32>, at| {
            let told = step_asked(point)(contour, at);
            if contour.length > 3 {
                plant(contour, At::First);
            }
            told
        };
        let report = run(&point_beside(wrong), 1, COUNT);
        assert!(caught(&report).contains("changed"));
    }

    #[test]
    fn an_end_told_without_the_last_corner_is_caught() {
        let wrong = |q: &TwoAt| {
            let mut told = pair_next(q);
            let over = told.places.a.remaining == 0 && told.places.b.remaining == 0;
            if told.corners == 1 && over {
                told.corners = 0;
                (told.x, told.y) = (0, 0);
            }
            told
        };
        caught(&run(&pair_next_beside(next_asked(wrong)), 1, COUNT));
    }
}
