//! What is asked of the three calls on part tables, with how much memory is lent:
//! small inputs exhaustively, damaged ones, each limit, and random ones.

use crate::rng::Rng;
use crate::stored::{damage_table_bytes, table_bytes, WAYS};
use crate::tables::{self, Rule, RULES};
use judge::room::Room;
use judge::shown::Side;
use judge::stored::encode;
use judge::table::Table;

/// A stored table to read, and the places lent for starts and numbers.
#[derive(Debug, Clone, PartialEq, Eq)]
pub struct Read {
    pub bytes: Vec<u8>,
    pub lent: Room,
}

/// A table to write, and the bytes lent.
#[derive(Debug, Clone, PartialEq, Eq)]
pub struct Write {
    pub table: Table,
    pub lent: usize,
}

/// A part asked for.
#[derive(Debug, Clone, PartialEq, Eq)]
pub struct Show {
    pub left: Table,
    pub right: Table,
    pub side: Side,
    pub part: u32,
}

pub type Inputs<'a, T> = Box<dyn Iterator<Item = T> + 'a>;

/// How often each two damages are put together.
const TIMES: usize = 20;

/// Lent places beside the exact number: one short, exact, longer.
fn about(exact: usize) -> [usize; 3] {
    [exact.saturating_sub(1), exact, exact + 3]
}

fn one_about(rng: &mut Rng, exact: usize) -> usize {
    let [short, exact, longer] = about(exact);
    rng.pick(&[0, short, exact, exact, exact, longer, longer + 40])
}

/// Every two of a list, and each with itself.
fn twos<T: Copy>(list: &[T]) -> Vec<[T; 2]> {
    let from = |i: usize| list[i..].iter().map(move |&b| [list[i], b]);
    (0..list.len()).flat_map(from).collect()
}

// ---- read

pub fn reads(rng: &mut Rng, count: u64) -> Inputs<'_, Read> {
    let tables = tables::small(4, 4, 5).filter(|t| !t.starts.is_empty());
    let whole = tables.chain(tables::limits()).flat_map(|table| {
        let bytes = encode(&table);
        let rooms = about(table.starts.len()).map(|starts| {
            about(table.corners.len()).map(|numbers| Read {
                bytes: bytes.clone(),
                lent: Room { starts, numbers },
            })
        });
        rooms.into_iter().flatten()
    });
    let short = short_bytes().map(|bytes| Read {
        bytes,
        lent: Room {
            starts: 5,
            numbers: 8,
        },
    });
    let damaged = damaged_reads(rng);
    let random = (0..count).map(move |_| any_read(rng));
    Box::new(short.chain(whole).chain(damaged).chain(random))
}

/// A random one.
pub fn any_read(rng: &mut Rng) -> Read {
    let bytes = match rng.below(4) {
        0 => few_words(rng),
        _ => table_bytes(rng),
    };
    read(rng, bytes)
}

/// Strings of every length up to 44 bytes: of one byte, of counting ones, and
/// headed by every two small counts.
fn short_bytes() -> impl Iterator<Item = Vec<u8>> {
    let plain = (0..=44usize).flat_map(|n| {
        let counting = (0..n).map(|i| i as u8).collect();
        [vec![0; n], vec![1; n], vec![255; n], counting]
    });
    let headed = (8..=44usize).flat_map(|n| {
        (0..16u8).flat_map(move |counts| {
            [0, 1, 64].map(|filling| {
                let mut bytes = [counts / 4, 0, 0, 0, counts % 4, 0, 0, 0].to_vec();
                bytes.resize(12.min(n), 0);
                bytes.resize(n, filling);
                bytes
            })
        })
    });
    plain.chain(headed)
}

/// A way to damage a stored table: as a table, or in its bytes.
#[derive(Clone, Copy)]
enum Harm {
    Rule(Rule),
    Way(usize),
}

/// Each damage alone and every two together. A table without starts has no
/// stored form.
fn damaged_reads(rng: &mut Rng) -> Vec<Read> {
    let rules = RULES.into_iter().chain([Rule::OffRange]);
    let harms: Vec<Harm> = rules
        .filter(|&rule| rule != Rule::NoStarts)
        .map(Harm::Rule)
        .chain((0..WAYS).map(Harm::Way))
        .collect();
    let mut out = Vec::new();
    for two in twos(&harms) {
        for _ in 0..TIMES {
            let rules: Vec<Rule> = two
                .iter()
                .filter_map(|&h| match h {
                    Harm::Rule(rule) => Some(rule),
                    Harm::Way(_) => None,
                })
                .collect();
            let mut bytes = encode(&tables::broken(rng, &rules));
            for harm in two {
                if let Harm::Way(way) = harm {
                    damage_table_bytes(rng, &mut bytes, way);
                }
            }
            out.push(read(rng, bytes));
        }
    }
    out
}

/// Few words, mostly small.
fn few_words(rng: &mut Rng) -> Vec<u8> {
    let count = rng.below(12);
    (0..count)
        .flat_map(|_| {
            let size = rng.pick(&[32, 61, 62, 63]);
            ((rng.word() >> size) as u32).to_le_bytes()
        })
        .collect()
}

/// The bytes with places lent about the counts that they tell, where those are
/// small.
fn read(rng: &mut Rng, bytes: Vec<u8>) -> Read {
    let told = |k: usize| match bytes.get(4 * k..4 * k + 4) {
        Some(word) => u32::from_le_bytes(word.try_into().expect("four bytes")).min(9_000),
        None => 3,
    };
    let (parts, corners) = (told(0) as usize, told(1) as usize);
    let lent = Room {
        starts: one_about(rng, parts + 1),
        numbers: one_about(rng, 2 * corners),
    };
    Read { bytes, lent }
}

// ---- write

pub fn writes(rng: &mut Rng, count: u64) -> Inputs<'_, Write> {
    let whole = tables::small(4, 4, 5).chain(tables::limits());
    let whole = whole.flat_map(|table| {
        about(stored_length(&table)).map(|lent| Write {
            table: table.clone(),
            lent,
        })
    });
    let damaged = damaged_tables(rng);
    let damaged: Vec<Write> = damaged.into_iter().map(|table| write(rng, table)).collect();
    let random = (0..count).map(move |_| any_write(rng));
    Box::new(whole.chain(damaged).chain(random))
}

/// A random one.
pub fn any_write(rng: &mut Rng) -> Write {
    let table = tables::any(rng);
    write(rng, table)
}

/// The bytes of the stored form, of any table.
fn stored_length(table: &Table) -> usize {
    8 + 4 * table.starts.len() + 4 * table.corners.len()
}

fn write(rng: &mut Rng, table: Table) -> Write {
    let lent = one_about(rng, stored_length(&table));
    Write { table, lent }
}

/// Each rule broken alone and every two together.
fn damaged_tables(rng: &mut Rng) -> Vec<Table> {
    let all: Vec<Rule> = RULES.into_iter().chain([Rule::OffRange]).collect();
    let each = twos(&all).into_iter().flat_map(|two| [two; TIMES]);
    each.map(|two| tables::broken(rng, &two)).collect()
}

// ---- show

pub fn shows(rng: &mut Rng, count: u64) -> Inputs<'_, Show> {
    let small: Vec<Table> = tables::small(3, 3, 4).collect();
    let few: Vec<Table> = tables::small(3, 2, 2).collect();
    let small = small.into_iter().flat_map(move |left| {
        let few = few.clone();
        few.into_iter()
            .flat_map(move |right| every_part(&left, &right))
    });
    let one = Table::of(&[vec![(7, 7)]]);
    let limits = tables::limits().into_iter().flat_map(move |table| {
        let mut out = about_last(&table, &one, Side::Left);
        out.extend(about_last(&one, &table, Side::Right));
        out.extend(about_last(&one, &table, Side::Left));
        out
    });
    let damaged: Vec<Show> = damaged_tables(rng)
        .into_iter()
        .flat_map(|table| {
            let good = tables::good(rng);
            [show(rng, &table, &good), show(rng, &good, &table)]
        })
        .collect();
    let random = (0..count).map(move |_| any_show(rng));
    Box::new(small.chain(limits).chain(damaged).chain(random))
}

/// A random one.
pub fn any_show(rng: &mut Rng) -> Show {
    let left = tables::any(rng);
    let right = match rng.below(3) {
        0 => tables::any(rng),
        _ => tables::good(rng),
    };
    show(rng, &left, &right)
}

const SIDES: [Side; 2] = [Side::Left, Side::Right];

/// Each part of both sides and one past the last.
fn every_part(left: &Table, right: &Table) -> Vec<Show> {
    let mut out = Vec::new();
    for side in SIDES {
        for part in 0..asked(left, right, side).starts.len() as u32 {
            out.push(of(left, right, side, part));
        }
    }
    out
}

/// The first part, the last, and those about it.
fn about_last(left: &Table, right: &Table, side: Side) -> Vec<Show> {
    let last = asked(left, right, side).starts.len() as u32 - 2;
    [0, last.saturating_sub(1), last, last + 1, u32::MAX]
        .map(|part| of(left, right, side, part))
        .to_vec()
}

fn show(rng: &mut Rng, left: &Table, right: &Table) -> Show {
    let side = rng.pick(&SIDES);
    let starts = &asked(left, right, side).starts;
    let part = match rng.below(12) {
        0 => rng.pick(&[u32::MAX, 0x8000_0000, 2_047, 2_048]),
        _ => rng.below(starts.len() + 1) as u32,
    };
    of(left, right, side, part)
}

fn of(left: &Table, right: &Table, side: Side, part: u32) -> Show {
    Show {
        left: left.clone(),
        right: right.clone(),
        side,
        part,
    }
}

fn asked<'a>(left: &'a Table, right: &'a Table, side: Side) -> &'a Table {
    match side {
        Side::Left => left,
        Side::Right => right,
    }
}

#[cfg(test)]
mod tests {
    use super::*;
    use judge::{shown, stored};
    use std::collections::BTreeMap;

    /// How often each fault occurs.
    fn tally(faults: impl Iterator<Item = u32>) -> BTreeMap<u32, usize> {
        let mut out = BTreeMap::new();
        for fault in faults {
            *out.entry(fault).or_default() += 1;
        }
        out
    }

    #[test]
    fn every_fault_occurs_often_before_the_random_ones_and_in_them() {
        let of_reads = |count| {
            let mut rng = Rng::new(81);
            let all = reads(&mut rng, count);
            tally(all.map(|q| stored::read_fault(&q.bytes, q.lent)))
        };
        let of_writes = |count| {
            let mut rng = Rng::new(82);
            let all = writes(&mut rng, count);
            tally(all.map(|q| stored::write_fault(&q.table, q.lent)))
        };
        let of_shows = |count| {
            let mut rng = Rng::new(83);
            let all = shows(&mut rng, count);
            tally(all.map(|q| shown::fault(&q.left, &q.right, q.side, q.part)))
        };
        let tried: [(&dyn Fn(u64) -> BTreeMap<u32, usize>, &[u32]); 3] = [
            (&of_reads, &[0, 7, 2, 22, 21]),
            (&of_writes, &[0, 7, 2, 21]),
            (&of_shows, &[0, 7, 12]),
        ];
        for (run, faults) in tried {
            let (before, after) = (run(0), run(3_000));
            for fault in faults {
                assert!(before[fault] >= 10, "{fault}: {before:?}");
                assert!(after[fault] >= before[fault] + 100, "{fault}: {after:?}");
            }
        }
    }

    #[test]
    fn short_strings_have_every_length_and_some_are_tables() {
        let all: Vec<Vec<u8>> = short_bytes().collect();
        for n in 0..=44 {
            assert!(all.iter().filter(|b| b.len() == n).count() >= 4);
        }
        let tables = all.iter().filter(|b| stored::decode(b).is_ok());
        assert!(tables.count() >= 5);
    }
}
