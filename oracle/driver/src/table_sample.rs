//! The stored sample of the calls on part tables: what is asked, of every fault, and
//! what the judge answers. The same every time.

use crate::sample::{listed, numbers, record, words, Case, Sample};
use crate::table::{read_into, show_part, write_into, ShowAnswer};
use inputs::rng::Rng;
use inputs::table_calls::{any_read, any_show, any_write, Read, Show, Write};
use judge::shown::Side;
use judge::Fault;

const SEED: u64 = 20_261_116;

/// Of each call, how many records of each fault.
const READS: &[(Fault, usize)] = &[(0, 30), (7, 20), (2, 15), (22, 15), (21, 15)];
const WRITES: &[(Fault, usize)] = &[(0, 30), (7, 20), (2, 15), (21, 15)];
const SHOWS: &[(Fault, usize)] = &[(0, 30), (7, 20), (12, 15)];

/// As many starts, numbers and bytes as a record may have.
const STARTS: usize = 32;
const NUMBERS: usize = 64;
const BYTES: usize = 256;

/// What each lent place holds before a call.
const HELD_START: u32 = 0xa5a5_a5a5;
const HELD_NUMBER: i32 = 0x5a5a_5a5a;
const HELD_BYTE: u8 = 0xa5;

/// A case with its fault, and whether it fits in a record.
struct Drawn {
    case: Case,
    fault: Fault,
    fits: bool,
}

fn fits(starts: usize, numbers: usize, bytes: usize) -> bool {
    starts <= STARTS && numbers <= NUMBERS && bytes <= BYTES
}

/// The kind, how long each list is, and two words more.
fn head(kind: u32, lists: [usize; 4], more: [u32; 2]) -> Vec<u8> {
    [
        words(&[kind]),
        words(&lists.map(|n| n as u32)),
        words(&more),
    ]
    .concat()
}

/// The lent starts and numbers, and the bytes to read.
fn read_case(input: Read) -> Drawn {
    let mut starts = vec![HELD_START; input.lent.starts];
    let mut corners = vec![HELD_NUMBER; input.lent.numbers];
    let record = record(&[
        head(0, [starts.len(), corners.len(), 0, 0], [0, 0]),
        words(&starts),
        numbers(&corners),
        input.bytes.clone(),
    ]);
    let told = read_into(&input, &mut starts, &mut corners);
    let line = format!(
        ", read_table: fault {}, parts {}, corners {}; {}; {}",
        told.fault,
        told.parts,
        told.corners,
        listed("starts", &starts),
        listed("corners", &corners)
    );
    Drawn {
        case: Case { record, line },
        fault: told.fault,
        fits: fits(starts.len(), corners.len(), input.bytes.len()),
    }
}

/// The table's starts and numbers, and the lent bytes.
fn write_case(input: Write) -> Drawn {
    let held = vec![HELD_BYTE; input.lent];
    let mut bytes = held.clone();
    let told = write_into(&input, &mut bytes);
    let (starts, corners) = (input.table.starts, input.table.corners);
    let record = record(&[
        head(1, [starts.len(), corners.len(), 0, 0], [0, 0]),
        words(&starts),
        numbers(&corners),
        held,
    ]);
    let shown: String = bytes.iter().map(|b| format!("{b:02x}")).collect();
    let line = format!(
        ", write_table: fault {}, length {}; bytes {shown}",
        told.fault, told.length
    );
    Drawn {
        case: Case { record, line },
        fault: told.fault,
        fits: fits(starts.len(), corners.len(), bytes.len()),
    }
}

/// Both tables, left and right; the side asked for and the part's number.
fn show_case(input: Show) -> Drawn {
    let ShowAnswer { told, numbers: at } = show_part(&input);
    let shown = listed("corners", &at);
    let Show {
        left,
        right,
        side,
        part,
    } = input;
    let lists = [
        left.starts.len(),
        left.corners.len(),
        right.starts.len(),
        right.corners.len(),
    ];
    let record = record(&[
        head(2, lists, [u32::from(side == Side::Right), part]),
        words(&left.starts),
        numbers(&left.corners),
        words(&right.starts),
        numbers(&right.corners),
    ]);
    Drawn {
        case: Case {
            record,
            line: format!(", show_part: fault {}; {shown}", told.fault),
        },
        fault: told.fault,
        fits: fits(lists[0] + lists[2], lists[1] + lists[3] + told.length, 0),
    }
}

/// Cases drawn until there are as many of each fault as asked for.
fn of_each(rng: &mut Rng, draw: fn(&mut Rng) -> Drawn, asked: &[(Fault, usize)]) -> Vec<Case> {
    let mut left = asked.to_vec();
    let mut out = Vec::new();
    while left.iter().any(|&(_, n)| n > 0) {
        let drawn = draw(rng);
        let wanted = |&&mut (fault, n): &&mut (Fault, usize)| fault == drawn.fault && n > 0;
        if let (true, Some((_, n))) = (drawn.fits, left.iter_mut().find(wanted)) {
            *n -= 1;
            out.push(drawn.case);
        }
    }
    out
}

/// Call by call.
fn cases() -> Vec<Case> {
    let mut rng = Rng::new(SEED);
    let mut out = of_each(&mut rng, |rng| read_case(any_read(rng)), READS);
    out.extend(of_each(&mut rng, |rng| write_case(any_write(rng)), WRITES));
    out.extend(of_each(&mut rng, |rng| show_case(any_show(rng)), SHOWS));
    out
}

pub fn sample() -> Sample {
    Sample::of(&cases())
}

#[cfg(test)]
mod tests {
    use super::*;
    use crate::sample::{taken_apart, told, word};

    #[test]
    fn the_sample_covers_what_it_should() {
        let sample = sample();
        let (records, lines) = taken_apart(&sample, 524);
        assert_eq!(records.len(), 240);
        let mut from = 0;
        for (kind, faults) in [READS, WRITES, SHOWS].into_iter().enumerate() {
            let to = from + faults.iter().map(|&(_, asked)| asked).sum::<usize>();
            assert!(records[from..to].iter().all(|r| word(r, 1) == kind as u32));
            for &(fault, asked) in faults {
                assert_eq!(told(&lines[from..to], fault), asked);
            }
            from = to;
        }
        assert_eq!(from, lines.len());
    }
}
