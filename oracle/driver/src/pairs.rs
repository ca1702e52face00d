//! The entry points of all pairs: `sum_parts` and `difference_parts`, which write a
//! contour for each left part and each right part to lent starts and corners.
//! Refusals are the judge's, contours the Rust's.

use crate::entry::{simpler_numbers, EntryPoint};
use crate::lent::{Handed, Kept};
use crate::mesh::SHARE;
use crate::table::{HandedTable, LentTable};
use crate::table_simpler::simpler_table;
use crate::told::Counts;
use crate::written::Written;
use cli::answers::pair_contours;
use inputs::operands::{self, Pair};
use inputs::pair_damage::{damaged, damaged_on, ORDER};
use inputs::rng::Rng;
use inputs::walk_calls::limit_windings;
use inputs::{contours, rooms, tables, text};
use judge::limits::{CONTOUR, PARTS};
use judge::pairs::{result_bounds, Operand, Operation};
use judge::room::{Room, Size};
use judge::shown::Side;
use judge::table::Table;
use judge::{Contour, Fault};

/// It is given the Rattle function that it asks.
pub fn all_pairs_beside<F>(operation: Operation, rattle: F) -> AllPairs<F>
where
    F: Fn([HandedOperand; 2], Handed<u32>, Handed<i32>) -> ToldPairs,
{
    AllPairs {
        operation,
        rattle,
        small: 4,
    }
}

/// An operand as it is handed over.
#[derive(Debug, Clone, Copy)]
pub struct HandedOperand {
    pub table: HandedTable,
    pub bounds: Bounds,
}

/// Least x, greatest x, least y, greatest y, as they pass to C.
#[repr(C)]
#[derive(Debug, Clone, Copy, PartialEq, Eq)]
pub struct Bounds(pub [i32; 4]);

/// What a call tells; all 0 but the fault where it refused.
#[repr(C)]
#[derive(Debug, Clone, Copy, PartialEq, Eq)]
pub struct ToldPairs {
    pub fault: u32,
    pub contours: u32,
    pub corners: u32,
    pub bounds: Bounds,
}

/// Two operands, and the room that is lent for their pairs.
#[derive(Debug, Clone)]
pub struct Call {
    pub pair: Pair,
    pub lent: Room,
}

/// The result's bounds; the counts and all of the memory about the lent buffers.
#[derive(Debug, PartialEq)]
pub struct PairsWritten {
    pub bounds: Bounds,
    pub written: Written,
}

/// What document 01 and the Rust say of a call.
pub fn written(call: &Call) -> PairsWritten {
    let Pair {
        operation,
        left,
        right,
    } = &call.pair;
    let written = Written::after(call.lent, pair_contours(*operation, left, right));
    let bounds = match written.counts.fault {
        0 => result_bounds(*operation, left.bounds, right.bounds),
        _ => [0; 4],
    };
    PairsWritten {
        bounds: Bounds(bounds.map(|b| i32::try_from(b).expect("a bound in range"))),
        written,
    }
}

/// The size of the answer; none where it is refused.
fn size(pair: &Pair) -> Size {
    let contours = pair_contours(pair.operation, &pair.left, &pair.right);
    Size::of(&contours.unwrap_or_default())
}

// ---- inputs

/// An operand of these contours within bounds that are just theirs.
fn operand(parts: &[Contour]) -> Operand {
    Operand {
        bounds: contours::bounds(&parts.concat()),
        table: Table::of(parts),
    }
}

fn pair(operation: Operation, left: &[Contour], right: &[Contour]) -> Pair {
    Pair {
        operation,
        left: operand(left),
        right: operand(right),
    }
}

/// With every room about the answer's size.
fn in_every_room(pair: Pair) -> impl Iterator<Item = Call> {
    let lents = rooms::every(size(&pair)).into_iter();
    lents.map(move |lent| Call {
        pair: pair.clone(),
        lent,
    })
}

/// With one of those rooms.
fn in_room(pair: Pair, number: usize) -> Call {
    let lents = rooms::every(size(&pair));
    Call {
        lent: lents[number % lents.len()],
        pair,
    }
}

/// Every two contours of up to so many corners on a 2 by 2 grid, alone and among
/// other parts, in the nine rooms by turns.
fn small(operation: Operation, corners: usize) -> impl Iterator<Item = Call> {
    let all = move || contours::small(2, corners).enumerate();
    all().flat_map(move |(i, a)| {
        all().flat_map(move |(j, b)| {
            let alone = pair(operation, &[a.clone()], &[b.clone()]);
            let triangle = vec![(0, 0), (3, 1), (1, 2)];
            let left = [triangle.clone(), a.clone(), vec![]];
            let right = [vec![(2, -1), (2, 5)], b, triangle];
            let among = pair(operation, &left, &right);
            [in_room(alone, i + j), in_room(among, i + 2 * j + 4)]
        })
    })
}

/// Every two contours of up to two corners, alone, in every room.
fn smallest(operation: Operation) -> impl Iterator<Item = Call> {
    let all = || contours::small(2, 2);
    all().flat_map(move |a| {
        all().flat_map(move |b| in_every_room(pair(operation, &[a.clone()], &[b])))
    })
}

/// A corner each, so many parts.
fn points(parts: usize) -> Vec<Contour> {
    (0..parts as i32).map(|i| vec![(i % 7, i % 5)]).collect()
}

/// Operands about the limits: result bounds at the limit and past it, windings at the
/// limits of 64 bits, tables at each limit, one fewer and one more, the longest
/// contours, and operands of which all corners and starts are 16 or 256, which the
/// Rattle code holds in smaller work buffers, one fewer and one more.
fn limits(rng: &mut Rng, operation: Operation) -> Vec<Pair> {
    let near = vec![vec![(0, 0)]];
    let mut out = operands::edges();
    out.extend((0..20).flat_map(|_| operands::one_way(rng)));
    out.retain(|pair| pair.operation == operation);
    for far in limit_windings() {
        out.push(pair(operation, &[far.clone()], &near));
        out.push(pair(operation, &near, &[far]));
    }
    for table in tables::limits() {
        let limited = Operand {
            table,
            bounds: [-10, 10, -10, 10],
        };
        for (left, right) in [(true, false), (false, true), (true, true)] {
            let side = |is: bool| if is { limited.clone() } else { operand(&near) };
            // two long tables have more pairs than are worth it, but for one of few parts
            if left && right && limited.table.starts.len() > 20 {
                continue;
            }
            out.push(Pair {
                operation,
                left: side(left),
                right: side(right),
            });
        }
    }
    let long = |rng: &mut Rng| contours::convex(rng, CONTOUR, 1 << 28);
    for _ in 0..10 {
        let (a, b) = (long(rng), long(rng));
        out.push(pair(operation, &[a.clone()], &[b.clone()]));
        out.push(pair(operation, &[a, vec![(5, 5)]], &[vec![], b]));
    }
    // as many parts and corners as there can be, by 16 parts
    let square = |i: i32| {
        let corners = [(0, 0), (3, 0), (3, 3), (0, 3)];
        corners.map(|(x, y)| (x + i % 90, y + i / 90)).to_vec()
    };
    let squares = |parts: usize| -> Vec<Contour> { (0..parts as i32).map(square).collect() };
    out.push(pair(operation, &squares(PARTS), &squares(16)));
    out.push(pair(operation, &squares(16), &squares(PARTS)));
    for (parts, others) in [
        (7, [1, 7, 8]),
        (8, [1, 7, 8]),
        (127, [1, 127, 128]),
        (128, [1, 127, 128]),
    ] {
        for other in others {
            out.push(pair(operation, &points(parts), &points(other)));
            out.push(pair(operation, &points(other), &points(parts)));
        }
        let mut ones = points(parts - 1);
        ones.push(vec![(1, 1), (4, 2)]);
        out.push(pair(operation, &ones, &points(3)));
        out.push(pair(operation, &points(3), &ones));
    }
    out
}

/// Every two of the listed contours, from every corner and either way round, alone and
/// among other parts, in the nine rooms by turns.
fn listed(operation: Operation) -> impl Iterator<Item = Call> {
    let turns = |contour: &Contour| -> Vec<Contour> {
        let back: Contour = contour.iter().rev().copied().collect();
        match contour.is_empty() {
            true => vec![contour.clone()],
            false => contours::turned(contour)
                .chain(contours::turned(&back))
                .collect(),
        }
    };
    let named = || contours::LISTED.iter().map(|(_, corners)| corners.to_vec());
    let lefts = named().flat_map(move |a| turns(&a).into_iter().map(move |t| (t, false)));
    let rights = named().flat_map(move |b| turns(&b).into_iter().map(move |t| (t, true)));
    lefts
        .chain(rights)
        .enumerate()
        .flat_map(move |(i, (turned, right))| {
            named().enumerate().flat_map(move |(j, other)| {
                let (a, b) = if right {
                    (other, turned.clone())
                } else {
                    (turned.clone(), other)
                };
                let alone = pair(operation, &[a.clone()], &[b.clone()]);
                let among = pair(
                    operation,
                    &[vec![(1, 1)], a],
                    &[b, vec![(0, 0), (1, 0), (0, 1)]],
                );
                [in_room(alone, i + j), in_room(among, i + 2 * j + 4)]
            })
        })
}

/// All faults in the order in which they are tried, the last two of the room.
const FAULTS: [Fault; 8] = [7, 2, 9, 8, 10, 20, 22, 21];

/// A fault, and the side that it is on; of room, no matter which.
type Sided = (Fault, Side);

/// Each fault by name, on either side, with each other by name, on either side, or with
/// itself, which is the fault alone.
fn every_two() -> Vec<[Sided; 2]> {
    let room = |fault: Fault| fault == 22 || fault == 21;
    let sided = || {
        let sides = [Side::Left, Side::Right];
        let all = FAULTS
            .into_iter()
            .flat_map(move |f| sides.map(|side| (f, side)));
        all.filter(move |&(f, side)| !room(f) || side == Side::Left)
    };
    // an operand without parts has no part that winds too far
    let none = |[a, b]: &[Sided; 2]| a.1 == b.1 && matches!((a.0, b.0), (8, 20) | (20, 8));
    let two = sided().flat_map(|a| sided().map(move |b| [a, b]));
    two.filter(|two| !none(two)).collect()
}

/// A good pair with two faults. Of too little room there is none at all, or one place
/// less than is needed.
fn with_faults(rng: &mut Rng, operation: Operation, [a, b]: [Sided; 2]) -> Call {
    let good = loop {
        let mut good = operands::good(rng, 3, 6);
        good.operation = operation;
        // so that room for corners can be wanting
        if size(&good).corners > 0 {
            break good;
        }
    };
    let of_pair: Vec<Sided> = [a, b]
        .into_iter()
        .filter(|(f, _)| ORDER.contains(f))
        .collect();
    let mut lent = Room {
        starts: size(&good).starts(),
        numbers: size(&good).numbers(),
    };
    let less = rng.once_in(2);
    let short = |places: usize| {
        if less && of_pair.is_empty() {
            places - 1
        } else {
            0
        }
    };
    for (fault, _) in [a, b] {
        match fault {
            22 => lent.starts = short(size(&good).starts()),
            21 => lent.numbers = short(size(&good).numbers()),
            _ => {}
        }
    }
    Call {
        pair: damaged_on(rng, &good, &of_pair),
        lent,
    }
}

/// Every two faults by name, so many times.
fn faults_by_name(rng: &mut Rng, operation: Operation, times: usize) -> Vec<Call> {
    let mut out = Vec::new();
    for _ in 0..times {
        for two in every_two() {
            out.push(with_faults(rng, operation, two));
        }
    }
    out
}

/// An accepted pair, few of them of many parts or long ones, once in ten times with edges
/// that differ in direction by next to nothing; then, once in two times, with a fault or
/// with two.
fn any_call(rng: &mut Rng, operation: Operation) -> Call {
    let (most, corners) = match rng.below(400) {
        0 => (3, CONTOUR),
        1 => (60, 20),
        2..=20 => (12, 40),
        21..=120 => (8, 7),
        _ => (4, 9),
    };
    let mut pair = match rng.below(10) {
        0 => operands::neighbours(rng, operation),
        _ => operands::good(rng, most, corners),
    };
    pair.operation = operation;
    let lent = rooms::about(rng, size(&pair));
    if rng.once_in(2) {
        let faults = [rng.pick(&ORDER), rng.pick(&ORDER)];
        pair = damaged(rng, &pair, &faults);
    }
    Call { pair, lent }
}

// ---- the entry point

pub struct AllPairs<F> {
    operation: Operation,
    rattle: F,
    /// How many corners the small contours have at most.
    small: usize,
}

impl<F> EntryPoint for AllPairs<F>
where
    F: Fn([HandedOperand; 2], Handed<u32>, Handed<i32>) -> ToldPairs,
{
    type Input = Call;
    type Answer = Kept<PairsWritten>;

    fn name(&self) -> &'static str {
        match self.operation {
            Operation::Sum => "sum_parts",
            Operation::Difference => "difference_parts",
        }
    }

    fn faults(&self) -> &'static [u32] {
        &FAULTS
    }

    fn inputs<'a>(&self, rng: &'a mut Rng, count: u64) -> Box<dyn Iterator<Item = Call> + 'a> {
        let operation = self.operation;
        let limits = limits(rng, operation).into_iter().flat_map(in_every_room);
        let faults = faults_by_name(rng, operation, 20);
        let random = (0..count / SHARE).map(move |_| any_call(rng, operation));
        let fixed = smallest(operation).chain(small(operation, self.small));
        let fixed = fixed.chain(listed(operation)).chain(faults);
        Box::new(fixed.chain(limits).chain(random))
    }

    fn rattle(&self, call: &Call) -> Kept<PairsWritten> {
        let Pair { left, right, .. } = &call.pair;
        let (mut l, mut r) = (LentTable::new(&left.table), LentTable::new(&right.table));
        let operands = [
            HandedOperand {
                table: l.handed(),
                bounds: Bounds(left.bounds),
            },
            HandedOperand {
                table: r.handed(),
                bounds: Bounds(right.bounds),
            },
        ];
        let mut written = Written::before(call.lent);
        let (starts, corners) = (written.starts.handed(), written.corners.handed());
        let told = (self.rattle)(operands, starts, corners);
        written.counts = Counts {
            fault: told.fault,
            parts: told.contours,
            corners: told.corners,
        };
        Kept {
            told: PairsWritten {
                bounds: told.bounds,
                written,
            },
            kept: l.holds(&left.table) && r.holds(&right.table),
        }
    }

    fn rust(&self, call: &Call) -> Kept<PairsWritten> {
        Kept::all(written(call))
    }

    fn fault(&self, answer: &Kept<PairsWritten>) -> u32 {
        answer.told.written.counts.fault
    }

    fn simpler(&self, call: &Call) -> Vec<Call> {
        let with = |change: &dyn Fn(&mut Call)| {
            let mut changed = call.clone();
            change(&mut changed);
            changed
        };
        let Pair { left, right, .. } = &call.pair;
        let mut out = Vec::new();
        for simpler in simpler_operand(left) {
            out.push(with(&|q| q.pair.left = simpler.clone()));
        }
        for simpler in simpler_operand(right) {
            out.push(with(&|q| q.pair.right = simpler.clone()));
        }
        for lent in rooms::less(call.lent) {
            out.push(with(&|q| q.lent = lent));
        }
        out
    }

    fn show(&self, call: &Call) -> String {
        let Room { starts, numbers } = call.lent;
        let left = text::operand(&call.pair.left);
        let right = text::operand(&call.pair.right);
        format!("left {left} right {right} room {starts} {numbers}")
    }
}

/// With a part left out, where the table keeps its rules, a simpler table, or a bound
/// nearer to 0.
fn simpler_operand(operand: &Operand) -> Vec<Operand> {
    let with_table = |table: Table| Operand {
        table,
        bounds: operand.bounds,
    };
    let mut out = Vec::new();
    if !judge::table::breaks_rules(&operand.table) {
        let parts = operand.table.contours();
        for out_of_it in 0..parts.len() {
            let mut fewer = parts.clone();
            fewer.remove(out_of_it);
            out.push(with_table(Table::of(&fewer)));
        }
    }
    out.extend(simpler_table(&operand.table).into_iter().map(with_table));
    for at in 0..4 {
        for bound in simpler_numbers(operand.bounds[at]) {
            let mut changed = operand.clone();
            changed.bounds[at] = bound;
            out.push(changed);
        }
    }
    out
}

/// The driver itself, tried on functions of known worth.
#[cfg(test)]
mod tests {
    use super::*;
    use crate::entry::{run, Report};
    use crate::lent::overruns::{self, plant, seen};
    use std::collections::BTreeSet;

    const COUNT: u64 = 10_000;

    type WritesPairs = fn(&Operand, &Operand, &mut [u32], &mut [i32]) -> ToldPairs;

    /// A function on operands and slices as the entry point asks it. Safe: the memory
    /// is lent.
    fn asked(f: WritesPairs) -> impl Fn([HandedOperand; 2], Handed<u32>, Handed<i32>) -> ToldPairs {
        move |operands, starts, corners| unsafe {
            let [left, right] = operands.map(|o| Operand {
                table: Table {
                    starts: o.table.starts.slice().to_vec(),
                    corners: o.table.corners.slice().to_vec(),
                },
                bounds: o.bounds.0,
            });
            f(&left, &right, starts.slice(), corners.slice())
        }
    }

    /// With contours of up to two corners, to be quick.
    fn beside(rattle: WritesPairs) -> impl EntryPoint {
        AllPairs {
            operation: Operation::Difference,
            rattle: asked(rattle),
            small: 2,
        }
    }

    /// What the Rust and the judge leave in the lent memory.
    fn right(
        left: &Operand,
        right: &Operand,
        starts: &mut [u32],
        corners: &mut [i32],
    ) -> ToldPairs {
        answered(Operation::Difference, left, right, starts, corners)
    }

    fn answered(
        operation: Operation,
        left: &Operand,
        right: &Operand,
        starts: &mut [u32],
        corners: &mut [i32],
    ) -> ToldPairs {
        let answer = written(&Call {
            pair: Pair {
                operation,
                left: left.clone(),
                right: right.clone(),
            },
            lent: Room {
                starts: starts.len(),
                numbers: corners.len(),
            },
        });
        let counts = answer.written.copied(starts, corners);
        ToldPairs {
            fault: counts.fault,
            contours: counts.parts,
            corners: counts.corners,
            bounds: answer.bounds,
        }
    }

    /// Right but for a place that is changed after the call.
    fn planted(
        change: impl Fn([HandedOperand; 2], Handed<u32>, Handed<i32>),
    ) -> AllPairs<impl Fn([HandedOperand; 2], Handed<u32>, Handed<i32>) -> ToldPairs> {
        all_pairs_beside(Operation::Difference, move |operands, starts, corners| {
            let told = asked(right)(operands, starts, corners);
            change(operands, starts, corners);
            told
        })
    }

    #[test]
    fn overruns_are_caught() {
        for at in overruns::ALL {
            for side in [0, 1] {
                seen(&planted(|o, _, _| plant(o[side].table.starts, at)), at);
                seen(&planted(|o, _, _| plant(o[side].table.corners, at)), at);
            }
        }
        for at in overruns::ENDS {
            seen(&planted(|_, starts, _| plant(starts, at)), at);
            seen(&planted(|_, _, corners| plant(corners, at)), at);
        }
    }

    #[test]
    fn a_right_function_passes() {
        let report = run(&beside(right), 1, COUNT);
        assert!(report.passed(), "{report}");
        assert!(report.faults.values().all(|&times| times > 20), "{report}");
    }

    fn caught(wrong: WritesPairs) -> String {
        let report: Report = run(&beside(wrong), 1, COUNT);
        assert!(report.differ > 0 && !report.passed());
        report.smallest.expect("a difference is shown")
    }

    #[test]
    fn a_sum_for_a_difference_is_caught() {
        caught(|l, r, starts, corners| answered(Operation::Sum, l, r, starts, corners));
    }

    #[test]
    fn a_bound_that_is_not_told_is_caught() {
        caught(|l, r, starts, corners| {
            let mut told = right(l, r, starts, corners);
            told.bounds.0[3] = 0;
            told
        });
    }

    /// Each of the eight faults alone, and with each other, on either side: the first of
    /// the two is told.
    #[test]
    fn every_two_faults_are_met_by_name() {
        let mut rng = Rng::new(1);
        for two in every_two() {
            for _ in 0..10 {
                let call = with_faults(&mut rng, Operation::Difference, two);
                let first = FAULTS.into_iter().find(|&f| two.iter().any(|t| t.0 == f));
                let told = written(&call).written.counts.fault;
                assert_eq!(Some(told), first, "{two:?}: {call:?}");
            }
        }
        // 14 alone, each with each, but for 8 and 20 on one side
        assert_eq!(every_two().len(), 14 * 14 - 4);
    }

    /// The listed contours have windings of every kind: none, once and more than once
    /// round, both ways, and crossings.
    #[test]
    fn the_listed_contours_are_what_their_names_say() {
        let doubled = |name: &str| {
            let corners = contours::LISTED.iter().find(|(n, _)| *n == name);
            judge::listing::area_two(&corners.expect("listed").1.to_vec())
        };
        assert_eq!(doubled("bow tie, no winding"), 0);
        assert!(doubled("bow tie, one half larger") > 0);
        assert!(doubled("bow tie, one half larger, clockwise") < 0);
        assert!(doubled("five-pointed star, twice round") > 0);
        assert!(doubled("five-pointed star, clockwise") < 0);
        assert_eq!(doubled("square, twice round"), 16);
        assert_eq!(doubled("segment in line, back by another way"), 0);
        assert!(doubled("triangle, clockwise") < 0);
    }

    /// The bounds of the results at the limits, the longest contours, and operands
    /// about the smaller work buffers' length occur.
    #[test]
    fn the_limits_are_met() {
        let mut rng = Rng::new(1);
        let all = limits(&mut rng, Operation::Difference);
        let accepted = all.iter().filter(|pair| size(pair).parts > 0);
        let of = |pair: &Pair| result_bounds(pair.operation, pair.left.bounds, pair.right.bounds);
        let met: BTreeSet<i64> = accepted.clone().flat_map(of).collect();
        let past: BTreeSet<i64> = all.iter().flat_map(of).collect();
        let edge = i64::from(inputs::coordinates::EDGE);
        assert!(met.contains(&edge) && met.contains(&-edge));
        assert!(past.contains(&(edge + 1)) && past.contains(&(-edge - 1)));
        assert!(!met.contains(&(edge + 1)) && !met.contains(&(-edge - 1)));
        assert!(accepted.clone().any(|pair| size(pair).corners > 2_000));
        assert!(accepted.clone().any(|pair| size(pair).parts == 16 * PARTS));
        for places in [15, 16, 17, 255, 256, 257] {
            let about = |o: &Operand| o.table.starts.len() + o.table.corner_count() == places;
            assert!(accepted.clone().any(|pair| about(&pair.left)));
            assert!(accepted.clone().any(|pair| about(&pair.right)));
        }
    }
}
