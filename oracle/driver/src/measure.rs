//! The entry points that measure: `contour_area_two`, `part_area_two`, `table_area_two`
//! and `table_bounds`, beside the judge, which has them from its own sentences.

use crate::entry::EntryPoint;
use crate::lent::{Handed, Kept, Lent};
use crate::mesh;
use crate::table::{HandedTable, LentTable};
use crate::table_simpler::simpler_table;
use crate::told::Told;
use inputs::measures::{self, Measured};
use inputs::rng::Rng;
use inputs::text;
use judge::table::Table;
use judge::{measure, Contour, Fault};
use std::fmt::Debug;

/// The bounds of all corners, 0 where refused.
#[repr(C)]
#[derive(Debug, Clone, Copy, PartialEq, Eq)]
pub struct ToldBounds {
    pub fault: u32,
    pub bounds: [i32; 4],
}

/// An answer that has a fault number.
pub trait Faulted: PartialEq + Debug {
    fn fault(&self) -> u32;
}

impl Faulted for Told {
    fn fault(&self) -> u32 {
        self.fault
    }
}

impl Faulted for ToldBounds {
    fn fault(&self) -> u32 {
        self.fault
    }
}

fn told(judged: Result<i64, Fault>) -> Told {
    judged.map_or_else(Told::refused, Told::accepted)
}

/// One of the calls: what the judge says, and what the function tells of memory that is
/// lent and watched.
pub struct Measures<A> {
    name: &'static str,
    faults: &'static [u32],
    judged: fn(&Measured) -> A,
    asked: Box<dyn Fn(&Measured) -> Kept<A>>,
}

/// A function on a lent table as it is asked.
fn of_table<A>(
    rattle: impl Fn(HandedTable, u32) -> A + 'static,
) -> Box<dyn Fn(&Measured) -> Kept<A>> {
    Box::new(move |input| {
        let mut lent = LentTable::new(&input.table);
        let told = rattle(lent.handed(), input.part);
        let kept = lent.holds(&input.table);
        Kept { told, kept }
    })
}

/// Each is given the Rattle function that it asks. A contour is the table's corners.
pub fn contour_area_two_beside(rattle: impl Fn(Handed<i32>) -> Told + 'static) -> Measures<Told> {
    Measures {
        name: "contour_area_two",
        faults: &[7, 2, 11],
        judged: |input| told(measure::contour_area_two(&input.table.corners)),
        asked: Box::new(move |input| {
            let mut lent = Lent::list(&input.table.corners);
            let told = rattle(lent.handed());
            let kept = lent.holds(&input.table.corners);
            Kept { told, kept }
        }),
    }
}

pub fn part_area_two_beside(rattle: impl Fn(HandedTable, u32) -> Told + 'static) -> Measures<Told> {
    Measures {
        name: "part_area_two",
        faults: &[7, 2, 12, 11],
        judged: |input| told(measure::part_area_two(&input.table, input.part)),
        asked: of_table(rattle),
    }
}

pub fn table_area_two_beside(rattle: impl Fn(HandedTable) -> Told + 'static) -> Measures<Told> {
    Measures {
        name: "table_area_two",
        faults: &[7, 2, 11],
        judged: |input| told(measure::table_area_two(&input.table)),
        asked: of_table(move |table, _| rattle(table)),
    }
}

pub fn table_bounds_beside(
    rattle: impl Fn(HandedTable) -> ToldBounds + 'static,
) -> Measures<ToldBounds> {
    let judged = |input: &Measured| match measure::bounds(&input.table) {
        Ok(bounds) => ToldBounds { fault: 0, bounds },
        Err(fault) => ToldBounds {
            fault,
            bounds: [0; 4],
        },
    };
    Measures {
        name: "table_bounds",
        faults: &[7, 2],
        judged,
        asked: of_table(move |table, _| rattle(table)),
    }
}

impl<A: Faulted> EntryPoint for Measures<A> {
    type Input = Measured;
    type Answer = Kept<A>;

    fn name(&self) -> &'static str {
        self.name
    }

    fn faults(&self) -> &'static [u32] {
        self.faults
    }

    fn inputs<'a>(&self, rng: &'a mut Rng, count: u64) -> Box<dyn Iterator<Item = Measured> + 'a> {
        measures::asked(rng, count / mesh::SHARE)
    }

    fn rattle(&self, input: &Measured) -> Kept<A> {
        (self.asked)(input)
    }

    fn rust(&self, input: &Measured) -> Kept<A> {
        Kept::all((self.judged)(input))
    }

    fn fault(&self, answer: &Kept<A>) -> u32 {
        answer.told.fault()
    }

    fn simpler(&self, Measured { table, part }: &Measured) -> Vec<Measured> {
        let mut tables = Vec::new();
        if !judge::table::breaks_starts(table) {
            let contours: Vec<Contour> = table.contours();
            let without = |at: usize| [&contours[..at], &contours[at + 1..]].concat();
            tables.extend((0..contours.len().min(40)).map(|at| Table::of(&without(at))));
        }
        tables.extend(simpler_table(table));
        let part = *part;
        let with_table = tables.into_iter().map(|table| Measured { table, part });
        let parts = [0, part / 2, part.saturating_sub(1)];
        let parts = parts.into_iter().filter(|&p| p < part);
        let with_part = parts.map(|part| Measured {
            table: table.clone(),
            part,
        });
        with_table.chain(with_part).collect()
    }

    fn show(&self, Measured { table, part }: &Measured) -> String {
        format!("{} part {part}", text::table(table))
    }
}

/// The driver itself, tried on functions of known worth.
#[cfg(test)]
mod tests {
    use super::*;
    use crate::entry::run;
    use crate::lent::overruns::{self, plant, seen};

    const COUNT: u64 = 20_000;

    /// The lent table, copied. Safe: the memory is lent.
    fn copied(table: HandedTable) -> Table {
        unsafe {
            Table {
                starts: table.starts.slice().to_vec(),
                corners: table.corners.slice().to_vec(),
            }
        }
    }

    fn contour(numbers: Handed<i32>) -> Told {
        told(measure::contour_area_two(unsafe { numbers.slice() }))
    }

    fn part(table: HandedTable, k: u32) -> Told {
        told(measure::part_area_two(&copied(table), k))
    }

    fn all(table: HandedTable) -> Told {
        told(measure::table_area_two(&copied(table)))
    }

    fn bounds(table: HandedTable) -> ToldBounds {
        let judged = measure::bounds(&copied(table));
        ToldBounds {
            fault: judged.err().unwrap_or(0),
            bounds: judged.unwrap_or_default(),
        }
    }

    #[test]
    fn right_functions_pass() {
        let reports = [
            run(&contour_area_two_beside(contour), 1, COUNT),
            run(&part_area_two_beside(part), 1, COUNT),
            run(&table_area_two_beside(all), 1, COUNT),
            run(&table_bounds_beside(bounds), 1, COUNT),
        ];
        for report in reports {
            assert!(report.passed(), "{report}");
            assert!(report.faults.values().all(|&times| times > 50), "{report}");
        }
    }

    #[test]
    fn overruns_are_caught() {
        for at in overruns::ALL {
            let entry = contour_area_two_beside(move |numbers| {
                let told = contour(numbers);
                plant(numbers, at);
                told
            });
            seen(&entry, at);
            let entry = part_area_two_beside(move |table, k| {
                let told = part(table, k);
                plant(table.starts, at);
                told
            });
            seen(&entry, at);
            let entry = table_area_two_beside(move |table| {
                let told = all(table);
                plant(table.corners, at);
                told
            });
            seen(&entry, at);
            let entry = table_bounds_beside(move |table| {
                let told = bounds(table);
                plant(table.starts, at);
                told
            });
            seen(&entry, at);
        }
    }

    fn caught<A: Faulted>(entry: &Measures<A>) -> String {
        let report = run(entry, 1, COUNT);
        assert!(report.differ > 0 && !report.passed(), "{report}");
        report.smallest.expect("a difference is shown")
    }

    #[test]
    fn wrong_areas_are_caught() {
        // without its sign
        caught(&part_area_two_beside(|table, k| {
            let mut told = part(table, k);
            told.value = told.value.saturating_abs();
            told
        }));
        // a last part left out
        caught(&table_area_two_beside(|table| {
            let whole = copied(table);
            if judge::table::breaks_starts(&whole) || whole.parts() == 0 {
                return all(table);
            }
            let contours = whole.contours();
            let rest = Table::of(&contours[..contours.len() - 1]);
            match all(table).fault {
                0 => told(measure::table_area_two(&rest)),
                _ => all(table),
            }
        }));
        // a sum that wraps, and a sum that is refused on its way
        caught(&contour_area_two_beside(|numbers| {
            let mut told = contour(numbers);
            if told.fault == 11 {
                told = Told::accepted(1);
            }
            told
        }));
        caught(&table_area_two_beside(|table| {
            let whole = copied(table);
            let parts = 0..whole.starts.len().saturating_sub(1) as u32;
            let leaves = |k| measure::part_area_two(&whole, k) == Err(11);
            match parts.into_iter().any(leaves) {
                true => Told::refused(11),
                false => all(table),
            }
        }));
    }

    #[test]
    fn limits_of_part_tables_and_wrong_bounds_are_caught() {
        caught(&table_area_two_beside(|table| {
            match judge::table::fault(&copied(table)) {
                0 => all(table),
                fault => Told::refused(fault),
            }
        }));
        caught(&table_bounds_beside(|table| {
            let mut told = bounds(table);
            told.bounds.swap(1, 2);
            told
        }));
        // 12 before 2
        caught(&part_area_two_beside(|table, k| match part(table, k) {
            told if told.fault == 2 && k as usize + 1 >= table.starts.length => Told::refused(12),
            told => told,
        }));
    }
}
