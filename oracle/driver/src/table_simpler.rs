//! Simpler inputs of the calls on part tables, to try in place of one that
//! differs: shorter lists, numbers nearer to 0, fewer places lent.

use crate::entry::simpler_numbers;
use inputs::table_calls::{Read, Show, Write};
use judge::shown::Side;
use judge::table::Table;

/// The list with a piece left out, and, where it is short, with one element
/// simpler.
pub fn simpler_list<T: Copy>(list: &[T], simpler: fn(T) -> Vec<T>) -> Vec<Vec<T>> {
    let piece = list.len().div_ceil(32).max(1);
    let mut out: Vec<Vec<T>> = (0..list.len())
        .step_by(piece)
        .map(|at| [&list[..at], &list[list.len().min(at + piece)..]].concat())
        .collect();
    if piece == 1 {
        for (i, &value) in list.iter().enumerate() {
            out.extend(simpler(value).into_iter().map(|value| {
                let mut changed = list.to_vec();
                changed[i] = value;
                changed
            }));
        }
    }
    out
}

/// Numbers nearer to 0.
pub fn lesser(value: usize) -> Vec<usize> {
    let nearer = [0, value / 2, value.saturating_sub(1)];
    nearer.into_iter().filter(|&n| n < value).collect()
}

pub fn simpler_table(table: &Table) -> Vec<Table> {
    let start = |start: u32| {
        lesser(start as usize)
            .into_iter()
            .map(|n| n as u32)
            .collect()
    };
    let starts = simpler_list(&table.starts, start);
    let corners = simpler_list(&table.corners, simpler_numbers);
    let with_starts = starts.into_iter().map(|starts| Table {
        starts,
        corners: table.corners.clone(),
    });
    let with_corners = corners.into_iter().map(|corners| Table {
        starts: table.starts.clone(),
        corners,
    });
    with_starts.chain(with_corners).collect()
}

pub fn simpler_read(input: &Read) -> Vec<Read> {
    let byte = |byte: u8| lesser(byte as usize).into_iter().map(|n| n as u8).collect();
    let mut out: Vec<Read> = simpler_list(&input.bytes, byte)
        .into_iter()
        .map(|bytes| Read {
            bytes,
            lent: input.lent,
        })
        .collect();
    let with = |starts: usize, numbers: usize| {
        let mut changed = input.clone();
        changed.lent.starts = starts;
        changed.lent.numbers = numbers;
        changed
    };
    let lent = input.lent;
    out.extend(
        lesser(lent.starts)
            .into_iter()
            .map(|n| with(n, lent.numbers)),
    );
    out.extend(
        lesser(lent.numbers)
            .into_iter()
            .map(|n| with(lent.starts, n)),
    );
    out
}

pub fn simpler_write(input: &Write) -> Vec<Write> {
    let Write { table, lent } = input;
    let tables = simpler_table(table).into_iter();
    let mut out: Vec<Write> = tables.map(|table| Write { table, lent: *lent }).collect();
    out.extend(lesser(*lent).into_iter().map(|lent| Write {
        table: table.clone(),
        lent,
    }));
    out
}

pub fn simpler_show(input: &Show) -> Vec<Show> {
    let with = |change: &dyn Fn(&mut Show)| {
        let mut changed = input.clone();
        change(&mut changed);
        changed
    };
    let mut out = Vec::new();
    for table in simpler_table(&input.left) {
        out.push(with(&|q| q.left = table.clone()));
    }
    for table in simpler_table(&input.right) {
        out.push(with(&|q| q.right = table.clone()));
    }
    for part in lesser(input.part as usize) {
        out.push(with(&|q| q.part = part as u32));
    }
    if input.side == Side::Right {
        out.push(with(&|q| q.side = Side::Left));
    }
    out
}

#[cfg(test)]
mod tests {
    use super::*;
    use inputs::rng::Rng;
    use inputs::table_calls::{any_read, any_show, any_write};

    /// What falls with each step: how many elements, and how far from 0.
    fn size<T: Copy + Into<i64>>(list: &[T]) -> i64 {
        list.iter().map(|&n| 1 + n.into().abs()).sum()
    }

    fn table_size(table: &Table) -> i64 {
        size(&table.starts) + size(&table.corners)
    }

    #[test]
    fn simpler_inputs_are_smaller() {
        let mut rng = Rng::new(91);
        let of_read = |q: &Read| size(&q.bytes) + (q.lent.starts + q.lent.numbers) as i64;
        let of_write = |q: &Write| table_size(&q.table) + q.lent as i64;
        let of_show = |q: &Show| {
            let asked = i64::from(q.part) + i64::from(q.side == Side::Right);
            table_size(&q.left) + table_size(&q.right) + asked
        };
        for _ in 0..50 {
            let (read, write, show) = (any_read(&mut rng), any_write(&mut rng), any_show(&mut rng));
            let reads = simpler_read(&read);
            assert!(reads.iter().all(|q| of_read(q) < of_read(&read)));
            let writes = simpler_write(&write);
            assert!(writes.iter().all(|q| of_write(q) < of_write(&write)));
            let shows = simpler_show(&show);
            assert!(shows.iter().all(|q| of_show(q) < of_show(&show)));
        }
    }
}
