//! The stored sample of `import_path`: what is asked, of every fault, and what the judge
//! answers. The same every time.

use crate::path::import_into;
use crate::sample::{listed, numbers, record, words, Case, Sample};
use inputs::paths::{any, at_edges, harmed, of_corners, Harm, Import, HARMS};
use inputs::rng::Rng;
use judge::limits::CONTOUR;
use judge::path::{imported, Frame, Item, CLOSE, HORIZONTAL, LINE, MOVE, RELATIVE_LINE, VERTICAL};

const SEED: u64 = 20_261_121;

/// Of the listed numbers about halves and ranges, of random ones that are taken, and of good
/// ones lent each of four rooms.
const EDGES: usize = 96;
const TAKEN: usize = 72;
const ROOMED: usize = 5;

/// As many items as a random one may have.
const ITEMS: usize = 14;

/// What each lent number holds before a call.
const HELD: i32 = 0x5a5a_5a5a;

fn longs(list: &[u64]) -> Vec<u8> {
    list.iter().flat_map(|v| v.to_le_bytes()).collect()
}

fn case(input: &Import) -> Case {
    let mut corners = vec![HELD; input.lent];
    let Frame { x, y, steps } = input.frame;
    let items = input.path.iter().flat_map(|i| [i.kind, i.x, i.y]);
    let record = record(&[
        words(&[input.path.len() as u32, input.lent as u32, 0, 0, 0, 0, 0]),
        longs(&[x, y, steps]),
        longs(&items.collect::<Vec<u64>>()),
        numbers(&corners),
    ]);
    let told = import_into(input, &mut corners);
    let line = format!(
        ": fault {}, corners {}; {}",
        told.fault,
        told.corners,
        listed("corners", &corners)
    );
    Case { record, line }
}

fn is_taken(input: &Import) -> bool {
    imported(&input.path, &input.frame, input.lent).is_ok()
}

/// Every kind of item; halves of both signs, and just less; a relative line back from one end of
/// the range to the other.
fn by_hand() -> Vec<Import> {
    let no_number = f64::NAN;
    let import = |list: &[(u64, f64, f64)], frame: [f64; 3]| {
        let item = |&(kind, x, y): &(u64, f64, f64)| Item {
            kind,
            x: x.to_bits(),
            y: y.to_bits(),
        };
        let [x, y, steps] = frame.map(f64::to_bits);
        Import {
            path: list.iter().map(item).collect(),
            frame: Frame { x, y, steps },
            lent: 2 * list.len() - 2,
        }
    };
    let close = (CLOSE, no_number, f64::INFINITY);
    let kinds = [
        (MOVE, 1.0, 2.0),
        (LINE, 3.0, 1.0),
        (HORIZONTAL, 5.25, no_number),
        (VERTICAL, no_number, -2.0),
        (RELATIVE_LINE, -0.25, 4.5),
        close,
    ];
    let less = f64::from_bits(0.5f64.to_bits() - 1);
    let halves = [
        (MOVE, 0.5, -0.5),
        (LINE, less, -less),
        (LINE, 2.5, -2.5),
        close,
    ];
    let end = 1_048_576.0;
    let across = [(MOVE, end, -end), (RELATIVE_LINE, -2.0 * end, 0.0), close];
    vec![
        import(&kinds, [1.0, -1.0, 4.0]),
        import(&halves, [0.0, 0.0, 1.0]),
        import(&across, [0.0, 0.0, 512.0]),
        import(&across, [0.0, 0.0, 1_024.0]),
    ]
}

/// Those by hand, the edges, random ones, rooms, each damage alone and every two, long ones.
fn imports() -> Vec<Import> {
    let mut rng = Rng::new(SEED);
    let mut out = by_hand();
    let edges = at_edges(&mut rng);
    out.extend((0..EDGES).map(|_| edges[rng.below(edges.len())].clone()));
    let mut left = TAKEN;
    while left > 0 {
        let input = any(&mut rng);
        if is_taken(&input) && (3..=ITEMS).contains(&input.path.len()) {
            out.push(input);
            left -= 1;
        }
    }
    for corners in 2..2 + ROOMED {
        let good = of_corners(&mut rng, corners);
        for lent in [2 * corners - 1, 2 * corners, 2 * corners + 1, corners] {
            let mut input = good.clone();
            input.lent = lent;
            out.push(input);
        }
    }
    // a long path is a long record, so few damages have one beside them
    let short: Vec<Harm> = HARMS.into_iter().filter(|&h| h != Harm::Long).collect();
    for (i, &a) in short.iter().enumerate() {
        out.extend(short[i..].iter().map(|&b| harmed(&mut rng, &[a, b])));
    }
    for harm in [Harm::Long, Harm::OffGrid, Harm::NotFinite] {
        let mut input = harmed(&mut rng, &[Harm::Long, harm]);
        input.lent = 8;
        out.push(input);
    }
    for lent in [2 * CONTOUR, 2 * CONTOUR - 1] {
        let mut input = of_corners(&mut rng, CONTOUR);
        input.lent = lent;
        out.push(input);
    }
    out
}

pub fn sample() -> Sample {
    Sample::of(&imports().iter().map(case).collect::<Vec<Case>>())
}

#[cfg(test)]
mod tests {
    use super::*;
    use crate::sample::{taken_apart, told, word};

    #[test]
    fn the_sample_covers_what_it_should() {
        let sample = sample();
        let longest = 32 + 24 + 24 * (CONTOUR + 1) + 4 * 2 * CONTOUR;
        let (records, lines) = taken_apart(&sample, longest);
        assert_eq!(records.len(), 302);
        for record in &records {
            let (items, lent) = (word(record, 1) as usize, word(record, 2) as usize);
            assert_eq!(record.len(), 56 + 24 * items + 4 * lent);
        }
        let faults = [0, 14, 7, 2, 21].map(|fault| told(&lines, fault));
        assert_eq!(faults, [128, 119, 2, 41, 12]);
        assert!(lines[0].ends_with("corners 5; corners 0 12 8 8 17 8 17 -4 16 14"));
        assert!(lines[1].ends_with("corners 3; corners 1 -1 0 0 3 -3"));
        let wide = 1 << 29;
        let across = format!("corners 2; corners {wide} -{wide} -{wide} -{wide}");
        assert!(lines[2].ends_with(&across));
        assert!(lines[3].starts_with("case 3: fault 2, corners 0;"));
    }
}
