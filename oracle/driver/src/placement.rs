//! The entry point `placement`: a place by the contours of a pair result, beside the
//! judge, which has it from its own sentences. And `placement of two meshes`: the same by
//! the differences of their parts, beside the judge's look at each two triangles.

use crate::entry::{simpler_numbers, EntryPoint};
use crate::lent::{Handed, Kept};
use crate::mesh;
use crate::pairs::{Bounds, HandedOperand, ToldPairs};
use crate::table::{HandedTable, LentTable};
use crate::table_simpler::simpler_table;
use crate::written::Written;
use cli::answers::{pair_contours, parts, Cut};
use inputs::meshes::Mesh;
use inputs::placements::{self, Asked, Moved};
use inputs::rng::Rng;
use inputs::{contours, text};
use judge::limits::point_in_range;
use judge::pairs::{self, Operand, Operation};
use judge::placement;
use judge::room::Room;
use judge::table::Table;
use judge::{Contour, Point};

/// Where the place is: 0 apart, 1 touching, 2 overlapping; 0 where refused.
#[repr(C)]
#[derive(Debug, Clone, Copy, PartialEq, Eq)]
pub struct ToldPlacement {
    pub fault: u32,
    pub placement: u32,
}

impl ToldPlacement {
    fn refused(fault: u32) -> Self {
        let placement = placement::APART;
        Self { fault, placement }
    }

    fn accepted(placement: u32) -> Self {
        Self {
            fault: 0,
            placement,
        }
    }
}

/// What the judge says.
fn judged(table: &Table, place: Point) -> ToldPlacement {
    match placement::fault(table, place) {
        0 => ToldPlacement::accepted(placement::placement(table, place)),
        fault => ToldPlacement::refused(fault),
    }
}

/// The place asked of lent contours, and whether they are as they were.
fn asked_of<F>(rattle: &F, table: &Table, place: Point) -> Kept<ToldPlacement>
where
    F: Fn(HandedTable, Point) -> ToldPlacement,
{
    let mut lent = LentTable::new(table);
    let told = rattle(lent.handed(), place);
    let kept = lent.holds(table);
    Kept { told, kept }
}

/// The same contours with a place nearer to 0.
fn simpler_places((x, y): Point) -> Vec<Point> {
    let xs = simpler_numbers(x).into_iter().map(|x| (x, y));
    let ys = simpler_numbers(y).into_iter().map(|y| (x, y));
    xs.chain(ys).collect()
}

/// The contours without a half, a quarter, and so on down to one or a thirty-second.
fn fewer(contours: &[Contour]) -> Vec<Vec<Contour>> {
    let count = contours.len();
    let sizes = (1..=5).map(|halved| (count >> halved).max(1));
    let mut out = vec![Vec::new()];
    for size in sizes.take(count.min(5)) {
        for at in (0..count).step_by(size) {
            let rest = &contours[count.min(at + size)..];
            out.push([&contours[..at], rest].concat());
        }
    }
    out.retain(|some| some.len() < count);
    out
}

// ---- by contours

pub struct Placement<F> {
    rattle: F,
}

/// It is given the Rattle function that it asks.
pub fn placement_beside<F>(rattle: F) -> Placement<F>
where
    F: Fn(HandedTable, Point) -> ToldPlacement,
{
    Placement { rattle }
}

impl<F: Fn(HandedTable, Point) -> ToldPlacement> EntryPoint for Placement<F> {
    type Input = Asked;
    type Answer = Kept<ToldPlacement>;

    fn name(&self) -> &'static str {
        "placement"
    }

    fn faults(&self) -> &'static [u32] {
        &[7, 2]
    }

    fn inputs<'a>(&self, rng: &'a mut Rng, count: u64) -> Box<dyn Iterator<Item = Asked> + 'a> {
        placements::asked(rng, count / mesh::SHARE)
    }

    fn rattle(&self, input: &Asked) -> Kept<ToldPlacement> {
        asked_of(&self.rattle, &input.table, input.place)
    }

    fn rust(&self, input: &Asked) -> Kept<ToldPlacement> {
        Kept::all(judged(&input.table, input.place))
    }

    fn fault(&self, answer: &Kept<ToldPlacement>) -> u32 {
        answer.told.fault
    }

    fn simpler(&self, input: &Asked) -> Vec<Asked> {
        let Asked { table, place } = input;
        let mut tables = Vec::new();
        if !judge::table::breaks_starts(table) {
            tables.extend(fewer(&table.contours()).iter().map(|c| Table::of(c)));
        }
        tables.extend(simpler_table(table));
        let with_place = simpler_places(*place).into_iter().map(|place| Asked {
            table: table.clone(),
            place,
        });
        let place = *place;
        let with_table = tables.into_iter().map(|table| Asked { table, place });
        with_table.chain(with_place).collect()
    }

    fn show(&self, Asked { table, place }: &Asked) -> String {
        format!("{} place {place:?}", text::table(table))
    }
}

// ---- by two meshes

pub struct OfMeshes<D, F> {
    difference: D,
    rattle: F,
}

/// It is given the two Rattle functions that it asks, one after the other: the
/// differences of all parts, and the place by them.
pub fn of_meshes_beside<D, F>(difference: D, rattle: F) -> OfMeshes<D, F>
where
    D: Fn([HandedOperand; 2], Handed<u32>, Handed<i32>) -> ToldPairs,
    F: Fn(HandedTable, Point) -> ToldPlacement,
{
    OfMeshes { difference, rattle }
}

/// A mesh's parts within their own bounds.
fn operand(mesh: &Mesh) -> Operand {
    let parts = parts(mesh, Cut::None).expect("an accepted mesh");
    Operand {
        bounds: contours::bounds(&parts.concat()),
        table: Table::of(&parts),
    }
}

/// Room for any answer: no pair has more corners than both its parts.
fn ample(left: &Table, right: &Table) -> Room {
    let corners = left.corner_count() * right.parts() + right.corner_count() * left.parts();
    Room {
        starts: left.parts() * right.parts() + 1,
        numbers: 2 * corners,
    }
}

impl<D, F> OfMeshes<D, F>
where
    D: Fn([HandedOperand; 2], Handed<u32>, Handed<i32>) -> ToldPairs,
    F: Fn(HandedTable, Point) -> ToldPlacement,
{
    /// The contours of all differences, or the refusal; and whether the operands, and what
    /// stands about what was written, are as they were.
    fn differences(&self, left: &Operand, right: &Operand) -> Kept<Result<Table, u32>> {
        let (mut l, mut r) = (LentTable::new(&left.table), LentTable::new(&right.table));
        let operands = [(&mut l, left), (&mut r, right)].map(|(lent, operand)| HandedOperand {
            table: lent.handed(),
            bounds: Bounds(operand.bounds),
        });
        let mut written = Written::before(ample(&left.table, &right.table));
        let (starts, corners) = (written.starts.handed(), written.corners.handed());
        let told = (self.difference)(operands, starts, corners);
        let (contours, numbers) = (told.contours as usize, 2 * told.corners as usize);
        let (table, begun) = match told.fault {
            0 => {
                let starts = written.starts.slice()[..=contours].to_vec();
                let corners = written.corners.slice()[..numbers].to_vec();
                (Ok(Table { starts, corners }), contours + 1)
            }
            fault => (Err(fault), 0),
        };
        let kept = l.holds(&left.table) && r.holds(&right.table);
        let places = written.starts.begun_anew(begun) && written.corners.begun_anew(numbers);
        Kept {
            told: table,
            kept: kept && places,
        }
    }
}

/// At least so many pairs of meshes, and one more in so many of the numbers that an entry
/// point takes, by so many places.
const LEAST: u64 = 25;
const SHARE: u64 = 160;
const PLACES: usize = 8;

/// Two meshes by places about the contours of their differences. Most have some, and few
/// are refused, for a result bound or since there are no parts.
fn moved(rng: &mut Rng) -> Vec<Moved> {
    let refused = rng.once_in(10);
    let without_parts = refused && rng.once_in(2);
    loop {
        let (first, mut second) = (placements::mesh(rng), placements::mesh(rng));
        if without_parts {
            second.clear();
        }
        let (left, right) = (operand(&first), operand(&second));
        let contours = pair_contours(Operation::Difference, &left, &right);
        if contours.is_err() != refused {
            continue;
        }
        let contours = contours.unwrap_or_default();
        let places = (0..PLACES).map(|_| placements::place(rng, &contours));
        let moved = places.map(|place| Moved {
            first: first.clone(),
            second: second.clone(),
            place,
        });
        return moved.collect();
    }
}

impl<D, F> EntryPoint for OfMeshes<D, F>
where
    D: Fn([HandedOperand; 2], Handed<u32>, Handed<i32>) -> ToldPairs,
    F: Fn(HandedTable, Point) -> ToldPlacement,
{
    type Input = Moved;
    type Answer = Kept<ToldPlacement>;

    fn name(&self) -> &'static str {
        "placement of two meshes"
    }

    fn faults(&self) -> &'static [u32] {
        &[10, 20, 2]
    }

    fn inputs<'a>(&self, rng: &'a mut Rng, count: u64) -> Box<dyn Iterator<Item = Moved> + 'a> {
        Box::new((0..LEAST + count / SHARE).flat_map(move |_| moved(rng)))
    }

    fn rattle(&self, input: &Moved) -> Kept<ToldPlacement> {
        let (left, right) = (operand(&input.first), operand(&input.second));
        let differences = self.differences(&left, &right);
        let mut asked = match differences.told {
            Ok(table) => asked_of(&self.rattle, &table, input.place),
            Err(fault) => Kept::all(ToldPlacement::refused(fault)),
        };
        asked.kept &= differences.kept;
        asked
    }

    fn rust(&self, input: &Moved) -> Kept<ToldPlacement> {
        let Moved {
            first,
            second,
            place,
        } = input;
        let (left, right) = (operand(first), operand(second));
        Kept::all(match pairs::fault(Operation::Difference, &left, &right) {
            0 if point_in_range(*place) => {
                ToldPlacement::accepted(placement::of_meshes(first, second, *place))
            }
            0 => ToldPlacement::refused(2),
            fault => ToldPlacement::refused(fault),
        })
    }

    fn fault(&self, answer: &Kept<ToldPlacement>) -> u32 {
        answer.told.fault
    }

    fn simpler(&self, input: &Moved) -> Vec<Moved> {
        let with = |change: &dyn Fn(&mut Moved)| {
            let mut changed = input.clone();
            change(&mut changed);
            changed
        };
        let good = |mesh: &Mesh| {
            let simpler = mesh::simpler(mesh).into_iter();
            simpler.filter(|mesh| judge::mesh::fault(mesh) == 0)
        };
        let firsts = good(&input.first).map(|mesh| with(&|q| q.first = mesh.clone()));
        let seconds = good(&input.second).map(|mesh| with(&|q| q.second = mesh.clone()));
        let places = simpler_places(input.place).into_iter();
        let places = places.map(|place| with(&|q| q.place = place));
        firsts.chain(seconds).chain(places).collect()
    }

    fn show(&self, input: &Moved) -> String {
        let (first, second) = (text::mesh(&input.first), text::mesh(&input.second));
        format!("{first} and {second} place {:?}", input.place)
    }
}

/// The driver itself, tried on functions of known worth.
#[cfg(test)]
mod tests {
    use super::*;
    use crate::entry::run;
    use crate::lent::overruns::{self, plant, seen};
    use crate::pairs;
    use inputs::operands::Pair;
    use std::collections::BTreeSet;

    const COUNT: u64 = 20_000;

    type Places = fn(&Table, Point) -> ToldPlacement;

    /// A function on a table and a place as the entry points ask it. Safe: the memory is
    /// lent.
    fn asked(f: Places) -> impl Fn(HandedTable, Point) -> ToldPlacement {
        move |table, place| {
            let table = unsafe {
                Table {
                    starts: table.starts.slice().to_vec(),
                    corners: table.corners.slice().to_vec(),
                }
            };
            f(&table, place)
        }
    }

    /// What the Rust and the judge leave of all differences.
    fn difference(
        operands: [HandedOperand; 2],
        starts: Handed<u32>,
        corners: Handed<i32>,
    ) -> ToldPairs {
        let [left, right] = operands.map(|o| Operand {
            table: unsafe {
                Table {
                    starts: o.table.starts.slice().to_vec(),
                    corners: o.table.corners.slice().to_vec(),
                }
            },
            bounds: o.bounds.0,
        });
        let (starts, corners) = unsafe { (starts.slice(), corners.slice()) };
        let answer = pairs::written(&pairs::Call {
            pair: Pair {
                operation: Operation::Difference,
                left,
                right,
            },
            lent: Room {
                starts: starts.len(),
                numbers: corners.len(),
            },
        });
        let counts = answer.written.copied(starts, corners);
        ToldPairs {
            fault: counts.fault,
            contours: counts.parts,
            corners: counts.corners,
            bounds: answer.bounds,
        }
    }

    #[test]
    fn right_functions_pass() {
        let report = run(&placement_beside(asked(judged)), 1, COUNT);
        assert!(report.passed(), "{report}");
        assert!(report.faults.values().all(|&times| times > 500), "{report}");
        let report = run(&of_meshes_beside(difference, asked(judged)), 1, COUNT);
        assert!(report.passed(), "{report}");
    }

    /// Meshes are apart, touch and overlap often.
    #[test]
    fn every_placement_of_meshes_occurs() {
        let entry = of_meshes_beside(difference, asked(judged));
        let mut rng = Rng::new(1);
        let all = entry.inputs(&mut rng, COUNT);
        let told: Vec<u32> = all.map(|q| entry.rust(&q).told.placement).collect();
        for placement in 0..3 {
            assert!(told.iter().filter(|&&p| p == placement).count() > 100);
        }
        let distinct: BTreeSet<u32> = told.into_iter().collect();
        assert_eq!(distinct.len(), 3);
    }

    #[test]
    fn overruns_are_caught() {
        for at in overruns::ALL {
            let right = |table, place| asked(judged)(table, place);
            let entry = placement_beside(move |table, place| {
                let told = right(table, place);
                plant(table.starts, at);
                told
            });
            seen(&entry, at);
            let entry = placement_beside(move |table, place| {
                let told = right(table, place);
                plant(table.corners, at);
                told
            });
            seen(&entry, at);
        }
    }

    /// Of what the differences are asked with: right but for a place that is changed after
    /// the call.
    fn planted(change: impl Fn([HandedOperand; 2], Handed<u32>, Handed<i32>)) -> impl EntryPoint {
        let difference = move |operands, starts, corners| {
            let told = difference(operands, starts, corners);
            change(operands, starts, corners);
            told
        };
        of_meshes_beside(difference, asked(judged))
    }

    #[test]
    fn overruns_of_the_differences_are_caught() {
        for at in overruns::ALL {
            for side in [0, 1] {
                seen(&planted(|o, _, _| plant(o[side].table.starts, at)), at);
                seen(&planted(|o, _, _| plant(o[side].table.corners, at)), at);
            }
        }
        for at in overruns::ENDS {
            seen(&planted(|_, starts, _| plant(starts, at)), at);
            seen(&planted(|_, _, corners| plant(corners, at)), at);
        }
    }

    /// The smallest contours that differ; some meshes do too.
    fn caught(wrong: Places) -> String {
        let of_meshes = of_meshes_beside(difference, asked(wrong));
        let differs = |q| of_meshes.rattle(&q) != of_meshes.rust(&q);
        assert!(of_meshes.inputs(&mut Rng::new(1), COUNT).any(differs));
        let report = run(&placement_beside(asked(wrong)), 1, COUNT);
        assert!(report.differ > 0 && !report.passed());
        report.smallest.expect("a difference is shown")
    }

    fn with(table: &Table, place: Point, change: fn(u32) -> u32) -> ToldPlacement {
        let mut told = judged(table, place);
        if told.fault == 0 {
            told.placement = change(told.placement);
        }
        told
    }

    #[test]
    fn touching_for_overlapping_and_apart_for_touching_are_caught() {
        caught(|table, place| with(table, place, |told| told.min(1)));
        let small = caught(|table, place| with(table, place, |told| told & 2));
        // one corner at the place
        let smallest = "starts [0 1] corners [";
        assert!(small.starts_with(smallest), "{small}");
    }

    #[test]
    fn a_last_contour_left_out_is_caught() {
        caught(|table, place| {
            let told = judged(table, place);
            if told.fault != 0 || table.parts() == 0 {
                return told;
            }
            let contours = table.contours();
            judged(&Table::of(&contours[..contours.len() - 1]), place)
        });
    }

    #[test]
    fn a_last_edge_left_out_is_caught() {
        caught(|table, place| {
            let told = judged(table, place);
            if told.fault != 0 {
                return told;
            }
            // right of that edge alone, and told of the corners as if it were not there
            let open = |c: &Vec<Point>| {
                let side = |a: Point, b: Point| {
                    let [a, b, p] = [a, b, place].map(|(x, y)| (i128::from(x), i128::from(y)));
                    (b.0 - a.0) * (p.1 - a.1) - (b.1 - a.1) * (p.0 - a.0)
                };
                c.len() > 2 && c.windows(2).all(|w| side(w[0], w[1]) > 0)
            };
            match table.contours().iter().any(open) {
                true => ToldPlacement::accepted(2),
                false => told,
            }
        });
    }

    #[test]
    fn limits_of_part_tables_and_a_place_out_of_range_taken_are_caught() {
        let limited: Places = |table, place| match judge::table::fault(table) {
            0 => judged(table, place),
            fault => ToldPlacement::refused(fault),
        };
        let report = run(&placement_beside(asked(limited)), 1, COUNT);
        assert!(report.differ > 0);
        caught(|table, place| match judged(table, place) {
            told if told.fault == 2 && !judge::table::leaves_range(table) => {
                ToldPlacement::accepted(placement::placement(table, place))
            }
            told => told,
        });
    }
}
