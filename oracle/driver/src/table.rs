//! The three calls on part tables: `read_table`, `write_table` and `show_part`,
//! beside the judge's reading of the stored form, which is written from document
//! 01 alone. The given Rust has no tables. The memory lent, and what stands about it,
//! is compared whole after each call.

use crate::entry::EntryPoint;
use crate::lent::{Handed, Kept, Lent};
use crate::table_simpler::{simpler_read, simpler_show, simpler_write};
use crate::told::Counts;
use inputs::rng::Rng;
use inputs::table_calls::{reads, shows, writes, Inputs, Read, Show, Write};
use judge::shown::{self, Side};
use judge::stored;
use judge::table::Table;
use judge::Fault;
use std::fmt::Debug;

/// How many bytes were written; 0 where refused.
#[repr(C)]
#[derive(Debug, Clone, Copy, PartialEq, Eq)]
pub struct ToldLength {
    pub fault: u32,
    pub length: usize,
}

/// Where the numbers of the part shown begin in the lent corners, and how many they
/// are; both 0 where refused.
#[repr(C)]
#[derive(Debug, Clone, Copy, PartialEq, Eq)]
pub struct ToldPart {
    pub fault: u32,
    pub offset: usize,
    pub length: usize,
}

/// What a call told, and the lent memory after it.
#[derive(Debug, PartialEq)]
pub struct ReadAnswer {
    pub told: Counts,
    pub starts: Lent<u32>,
    pub corners: Lent<i32>,
}

#[derive(Debug, PartialEq)]
pub struct WriteAnswer {
    pub told: ToldLength,
    pub bytes: Lent<u8>,
}

/// With the numbers that stand where the part is told to lie.
#[derive(Debug, PartialEq)]
pub struct ShowAnswer {
    pub told: ToldPart,
    pub numbers: Vec<i32>,
}

/// A table's lists, lent, and as they are handed over.
pub struct LentTable {
    starts: Lent<u32>,
    corners: Lent<i32>,
}

#[derive(Debug, Clone, Copy)]
pub struct HandedTable {
    pub starts: Handed<u32>,
    pub corners: Handed<i32>,
}

impl LentTable {
    pub fn new(table: &Table) -> Self {
        Self {
            starts: Lent::list(&table.starts),
            corners: Lent::list(&table.corners),
        }
    }

    pub fn handed(&mut self) -> HandedTable {
        HandedTable {
            starts: self.starts.handed(),
            corners: self.corners.handed(),
        }
    }

    pub fn holds(&self, table: &Table) -> bool {
        self.starts.holds(&table.starts) && self.corners.holds(&table.corners)
    }
}

impl From<&Table> for HandedTable {
    fn from(table: &Table) -> Self {
        Self {
            starts: table.starts[..].into(),
            corners: table.corners[..].into(),
        }
    }
}

/// The answer written on the front of what was lent.
fn put<T: Copy>(lent: &mut [T], answer: &[T]) {
    lent[..answer.len()].copy_from_slice(answer);
}

// ---- what document 01 says

/// Into what was lent, as many places as the input says.
pub fn read_into(input: &Read, starts: &mut [u32], corners: &mut [i32]) -> Counts {
    let mut told = Counts {
        fault: stored::read_fault(&input.bytes, input.lent),
        parts: 0,
        corners: 0,
    };
    if told.fault == 0 {
        let table = stored::decode(&input.bytes).expect("no fault");
        told.parts = table.parts() as u32;
        told.corners = table.corner_count() as u32;
        put(starts, &table.starts);
        put(corners, &table.corners);
    }
    told
}

pub fn write_into(input: &Write, bytes: &mut [u8]) -> ToldLength {
    let mut told = ToldLength {
        fault: stored::write_fault(&input.table, input.lent),
        length: 0,
    };
    if told.fault == 0 {
        let stored = stored::encode(&input.table);
        told.length = stored.len();
        put(bytes, &stored);
    }
    told
}

/// The part shown, and its place: two numbers for each corner before it.
pub fn show_part(input: &Show) -> ShowAnswer {
    let Show {
        left,
        right,
        side,
        part,
    } = input;
    let mut told = ToldPart {
        fault: shown::fault(left, right, *side, *part),
        offset: 0,
        length: 0,
    };
    let mut numbers = Vec::new();
    if told.fault == 0 {
        let corners = shown::corners(left, right, *side, *part);
        numbers.extend(corners.iter().flat_map(|&(x, y)| [x, y]));
        told.offset = 2 * asked_of(input).starts[*part as usize] as usize;
        told.length = numbers.len();
    }
    ShowAnswer { told, numbers }
}

/// The table that the part is asked of.
fn asked_of(input: &Show) -> &Table {
    match input.side {
        Side::Left => &input.left,
        Side::Right => &input.right,
    }
}

fn read_table(input: &Read) -> ReadAnswer {
    let mut starts = Lent::places(input.lent.starts);
    let mut corners = Lent::places(input.lent.numbers);
    ReadAnswer {
        told: read_into(input, starts.slice_mut(), corners.slice_mut()),
        starts,
        corners,
    }
}

fn write_table(input: &Write) -> WriteAnswer {
    let mut bytes = Lent::places(input.lent);
    WriteAnswer {
        told: write_into(input, bytes.slice_mut()),
        bytes,
    }
}

// ---- the entry points

/// A call on part tables beside the judge.
pub struct OfTables<I, A> {
    name: &'static str,
    faults: &'static [Fault],
    inputs: fn(&mut Rng, u64) -> Inputs<'_, I>,
    rattle: Box<dyn Fn(&I) -> Kept<A>>,
    judged: fn(&I) -> A,
    fault: fn(&A) -> Fault,
    simpler: fn(&I) -> Vec<I>,
}

/// Each is given the Rattle function that it asks.
pub fn read_table_beside<F>(rattle: F) -> OfTables<Read, ReadAnswer>
where
    F: Fn(Handed<u8>, Handed<u32>, Handed<i32>) -> Counts + 'static,
{
    let asked = move |input: &Read| {
        let mut bytes = Lent::list(&input.bytes);
        let mut starts = Lent::places(input.lent.starts);
        let mut corners = Lent::places(input.lent.numbers);
        let told = rattle(bytes.handed(), starts.handed(), corners.handed());
        Kept {
            told: ReadAnswer {
                told,
                starts,
                corners,
            },
            kept: bytes.holds(&input.bytes),
        }
    };
    OfTables {
        name: "read_table",
        faults: &[7, 2, 22, 21],
        inputs: reads,
        rattle: Box::new(asked),
        judged: read_table,
        fault: |answer| answer.told.fault,
        simpler: simpler_read,
    }
}

pub fn write_table_beside<F>(rattle: F) -> OfTables<Write, WriteAnswer>
where
    F: Fn(HandedTable, Handed<u8>) -> ToldLength + 'static,
{
    let asked = move |input: &Write| {
        let mut table = LentTable::new(&input.table);
        let mut bytes = Lent::places(input.lent);
        let told = rattle(table.handed(), bytes.handed());
        Kept {
            told: WriteAnswer { told, bytes },
            kept: table.holds(&input.table),
        }
    };
    OfTables {
        name: "write_table",
        faults: &[7, 2, 21],
        inputs: writes,
        rattle: Box::new(asked),
        judged: write_table,
        fault: |answer| answer.told.fault,
        simpler: simpler_write,
    }
}

pub fn show_part_beside<F>(rattle: F) -> OfTables<Show, ShowAnswer>
where
    F: Fn([HandedTable; 2], Side, u32) -> ToldPart + 'static,
{
    let asked = move |input: &Show| {
        let mut left = LentTable::new(&input.left);
        let mut right = LentTable::new(&input.right);
        let told = rattle([left.handed(), right.handed()], input.side, input.part);
        let corners = &asked_of(input).corners;
        let numbers = corners.iter().skip(told.offset).take(told.length);
        let numbers = numbers.copied().collect();
        Kept {
            told: ShowAnswer { told, numbers },
            kept: left.holds(&input.left) && right.holds(&input.right),
        }
    };
    OfTables {
        name: "show_part",
        faults: &[7, 12],
        inputs: shows,
        rattle: Box::new(asked),
        judged: show_part,
        fault: |answer| answer.told.fault,
        simpler: simpler_show,
    }
}

/// A table is many numbers: a fifth of the count.
const SHARE: u64 = 5;

impl<I: Clone + Debug, A: PartialEq + Debug> EntryPoint for OfTables<I, A> {
    type Input = I;
    type Answer = Kept<A>;

    fn name(&self) -> &'static str {
        self.name
    }

    fn faults(&self) -> &'static [u32] {
        self.faults
    }

    fn inputs<'a>(&self, rng: &'a mut Rng, count: u64) -> Inputs<'a, I> {
        (self.inputs)(rng, count / SHARE)
    }

    fn rattle(&self, input: &I) -> Kept<A> {
        (self.rattle)(input)
    }

    fn rust(&self, input: &I) -> Kept<A> {
        Kept::all((self.judged)(input))
    }

    fn fault(&self, answer: &Kept<A>) -> u32 {
        (self.fault)(&answer.told)
    }

    fn simpler(&self, input: &I) -> Vec<I> {
        (self.simpler)(input)
    }

    fn show(&self, input: &I) -> String {
        format!("{input:?}")
    }
}

/// Right functions pass, and each deliberate fault is caught and made small.
#[cfg(test)]
mod tests {
    use super::*;
    use crate::entry::{run, Report};
    use crate::lent::overruns::{self, plant, seen};
    use judge::limits::{CONTOUR, CORNERS, PARTS};
    use judge::room::Room;

    const COUNT: u64 = 10_000;

    // ---- functions on an input and the lent places, as the entry points ask them.
    // Safe: the memory is lent.

    type Reads = fn(&Read, &mut [u32], &mut [i32]) -> Counts;
    type Writes = fn(&Write, &mut [u8]) -> ToldLength;
    type Shows = fn(&Show) -> ToldPart;

    fn read_asked(f: Reads) -> impl Fn(Handed<u8>, Handed<u32>, Handed<i32>) -> Counts {
        move |bytes, starts, corners| {
            let input = Read {
                bytes: unsafe { bytes.slice() }.to_vec(),
                lent: Room {
                    starts: starts.length,
                    numbers: corners.length,
                },
            };
            unsafe { f(&input, starts.slice(), corners.slice()) }
        }
    }

    fn table_of(handed: HandedTable) -> Table {
        unsafe {
            Table {
                starts: handed.starts.slice().to_vec(),
                corners: handed.corners.slice().to_vec(),
            }
        }
    }

    fn write_asked(f: Writes) -> impl Fn(HandedTable, Handed<u8>) -> ToldLength {
        move |table, bytes| {
            let input = Write {
                table: table_of(table),
                lent: bytes.length,
            };
            f(&input, unsafe { bytes.slice() })
        }
    }

    fn show_asked(f: Shows) -> impl Fn([HandedTable; 2], Side, u32) -> ToldPart {
        move |[left, right], side, part| {
            f(&Show {
                left: table_of(left),
                right: table_of(right),
                side,
                part,
            })
        }
    }

    fn show_told(input: &Show) -> ToldPart {
        show_part(input).told
    }

    #[test]
    fn right_functions_pass() {
        for report in [
            run(&read_table_beside(read_asked(read_into)), 1, COUNT),
            run(&write_table_beside(write_asked(write_into)), 1, COUNT),
            run(&show_part_beside(show_asked(show_told)), 1, COUNT),
        ] {
            assert!(report.passed(), "{report}");
            assert!(report.compared > COUNT / SHARE + 5_000, "{report}");
        }
    }

    #[test]
    fn overruns_of_read_table_are_caught() {
        for at in overruns::ALL {
            let entry = read_table_beside(move |bytes, starts, corners| {
                let told = read_asked(read_into)(bytes, starts, corners);
                plant(bytes, at);
                told
            });
            seen(&entry, at);
        }
        for at in overruns::ENDS {
            let entry = read_table_beside(move |bytes, starts, corners| {
                let told = read_asked(read_into)(bytes, starts, corners);
                plant(starts, at);
                told
            });
            seen(&entry, at);
            let entry = read_table_beside(move |bytes, starts, corners| {
                let told = read_asked(read_into)(bytes, starts, corners);
                plant(corners, at);
                told
            });
            seen(&entry, at);
        }
    }

    #[test]
    fn overruns_of_write_table_are_caught() {
        for at in overruns::ALL {
            let entry = write_table_beside(move |table, bytes| {
                let told = write_asked(write_into)(table, bytes);
                plant(table.starts, at);
                told
            });
            seen(&entry, at);
            let entry = write_table_beside(move |table, bytes| {
                let told = write_asked(write_into)(table, bytes);
                plant(table.corners, at);
                told
            });
            seen(&entry, at);
        }
        for at in overruns::ENDS {
            let entry = write_table_beside(move |table, bytes| {
                let told = write_asked(write_into)(table, bytes);
                plant(bytes, at);
                told
            });
            seen(&entry, at);
        }
    }

    #[test]
    fn overruns_of_show_part_are_caught() {
        for at in overruns::ALL {
            for side in 0..2 {
                let entry = show_part_beside(move |tables, of, part| {
                    let told = show_asked(show_told)(tables, of, part);
                    plant(tables[side].starts, at);
                    told
                });
                seen(&entry, at);
                let entry = show_part_beside(move |tables, of, part| {
                    let told = show_asked(show_told)(tables, of, part);
                    plant(tables[side].corners, at);
                    told
                });
                seen(&entry, at);
            }
        }
    }

    fn caught(report: &Report) -> &str {
        assert!(report.differ > 0 && !report.passed());
        report.smallest.as_ref().expect("a difference is shown")
    }

    fn read_fails(wrong: Reads) -> String {
        caught(&run(&read_table_beside(read_asked(wrong)), 1, COUNT)).to_string()
    }

    fn write_fails(wrong: Writes) -> String {
        caught(&run(&write_table_beside(write_asked(wrong)), 1, COUNT)).to_string()
    }

    fn show_fails(wrong: Shows) -> String {
        caught(&run(&show_part_beside(show_asked(wrong)), 1, COUNT)).to_string()
    }

    #[test]
    fn a_refusal_that_has_written_is_caught() {
        let small = read_fails(|q, starts, corners| {
            let told = read_into(q, starts, corners);
            if told.fault == 21 {
                let table = stored::decode(&q.bytes).expect("only the room is short");
                put(starts, &table.starts);
            }
            told
        });
        assert!(small.contains("fault: 21"), "{small}");
        write_fails(|q, bytes| {
            let told = write_into(q, bytes);
            if told.fault == 21 && q.lent > 0 {
                bytes[0] = 0;
            }
            told
        });
    }

    #[test]
    fn places_past_the_answer_set_to_0_are_caught() {
        read_fails(|q, starts, corners| {
            let told = read_into(q, starts, corners);
            if told.fault == 0 {
                corners[2 * told.corners as usize..].fill(0);
            }
            told
        });
        write_fails(|q, bytes| {
            let told = write_into(q, bytes);
            if told.fault == 0 {
                bytes[told.length..].fill(0);
            }
            told
        });
    }

    /// Some input shows the difference. A whole run would make each small, which
    /// takes long of tables at a limit.
    fn differs(wrong: Writes) -> bool {
        let entry = write_table_beside(write_asked(wrong));
        writes(&mut Rng::new(1), 0).any(|q| entry.rattle(&q) != entry.rust(&q))
    }

    /// Refuses with 7 where `wrong`.
    fn refused_where(q: &Write, bytes: &mut [u8], wrong: bool) -> ToldLength {
        match wrong {
            true => ToldLength {
                fault: 7,
                length: 0,
            },
            false => write_into(q, bytes),
        }
    }

    fn has_contour(table: &Table, corners: usize) -> bool {
        let long = |w: &[u32]| w[1].wrapping_sub(w[0]) as usize == corners;
        table.starts.windows(2).any(long)
    }

    #[test]
    fn limits_that_are_one_too_low_are_caught() {
        let wrongs: [Writes; 3] = [
            |q, bytes| refused_where(q, bytes, q.table.starts.len() == PARTS + 1),
            |q, bytes| refused_where(q, bytes, q.table.corner_count() == CORNERS),
            |q, bytes| refused_where(q, bytes, has_contour(&q.table, CONTOUR)),
        ];
        for wrong in wrongs {
            assert!(differs(wrong));
        }
    }

    /// Tells no fault where `wrong` and the fault is 7.
    fn accepted_where(q: &Write, bytes: &mut [u8], wrong: bool) -> ToldLength {
        let mut told = write_into(q, bytes);
        if wrong && told.fault == 7 {
            told.fault = 0;
        }
        told
    }

    #[test]
    fn limits_that_are_one_too_high_are_caught() {
        let wrongs: [Writes; 3] = [
            |q, bytes| accepted_where(q, bytes, q.table.starts.len() == PARTS + 2),
            |q, bytes| accepted_where(q, bytes, q.table.corner_count() == CORNERS + 1),
            |q, bytes| accepted_where(q, bytes, has_contour(&q.table, CONTOUR + 1)),
        ];
        for wrong in wrongs {
            assert!(differs(wrong));
        }
    }

    #[test]
    fn the_room_tried_before_the_rules_is_caught() {
        let small = read_fails(|q, starts, corners| {
            let mut told = read_into(q, starts, corners);
            if told.fault != 0 && q.lent.starts == 0 {
                told.fault = 22;
            }
            told
        });
        assert!(
            small.contains("Rust ReadAnswer { told: Counts { fault: 7,"),
            "{small}"
        );
    }

    #[test]
    fn counts_the_wrong_way_round_are_caught() {
        let small = write_fails(|q, bytes| {
            let told = write_into(q, bytes);
            if told.fault == 0 {
                bytes[..8].rotate_left(4);
            }
            told
        });
        assert!(small.contains("starts: [0, 0], corners: []"), "{small}");
    }

    #[test]
    fn the_other_operand_is_caught() {
        let small = show_fails(|q| {
            let mut turned = q.clone();
            std::mem::swap(&mut turned.left, &mut turned.right);
            show_told(&turned)
        });
        assert!(small.contains("fault: 12"), "{small}");
    }

    /// Only the table asked for is judged.
    #[test]
    fn a_table_not_judged_is_caught() {
        let small = show_fails(|q| {
            let mut alone = q.clone();
            match q.side {
                Side::Left => alone.right = Table::of(&[]),
                Side::Right => alone.left = Table::of(&[]),
            }
            show_told(&alone)
        });
        assert!(
            small.contains("Rust ShowAnswer { told: ToldPart { fault: 7,"),
            "{small}"
        );
    }

    #[test]
    fn the_next_part_is_caught() {
        show_fails(|q| {
            let mut next = q.clone();
            next.part = q.part.saturating_add(1);
            show_told(&next)
        });
    }

    #[test]
    fn a_place_that_is_wrong_is_caught() {
        let small = show_fails(|q| {
            let mut told = show_told(q);
            told.offset /= 2;
            told
        });
        assert!(small.contains("offset: 2,"), "{small}");
        show_fails(|q| {
            let mut told = show_told(q);
            if told.fault != 0 {
                told.offset = 2;
            }
            told
        });
    }
}
