//! The stored sample of the plane's functions: what is asked, and what the Rust and
//! the judge answer. The same every time.

use crate::plane::{angle_cmp, area_two, cross_product};
use crate::sample::{numbers, record, words, Case, Sample};
use crate::told::Told;
use inputs::plane::{self, Four};
use inputs::rng::Rng;

const SEED: u64 = 20_261_115;

/// Of each kind: pairs of small vectors, and random ones of every kind.
const SMALL: usize = 60;
const RANDOM: usize = 80;

/// The call's name, the points asked about, and what is told of them.
fn asked(kind: u32, four: Four) -> (&'static str, Four, Told) {
    match kind {
        0 => ("cross_product", four, cross_product(four)),
        1 => {
            let [a, b, c] = plane::three(four);
            ("area_two", [a, b, c, (0, 0)], area_two([a, b, c]))
        }
        _ => ("angle_cmp", four, angle_cmp(four)),
    }
}

fn case(kind: u32, four: Four) -> Case {
    let (name, points, Told { fault, value }) = asked(kind, four);
    let coordinates: Vec<i32> = points.iter().flat_map(|p| [p.0, p.1]).collect();
    Case {
        record: record(&[words(&[kind]), numbers(&coordinates)]),
        line: format!(", {name}: fault {fault}, value {value}"),
    }
}

fn cases() -> Vec<Case> {
    let mut rng = Rng::new(SEED);
    let small: Vec<Four> = plane::small(2).collect();
    let mut out = Vec::new();
    for kind in 0..3 {
        for i in 0..SMALL + RANDOM {
            let four = if i < SMALL {
                small[rng.below(small.len())]
            } else {
                plane::any(&mut rng)
            };
            out.push(case(kind, four));
        }
    }
    out
}

pub fn sample() -> Sample {
    Sample::of(&cases())
}

#[cfg(test)]
mod tests {
    use super::*;
    use crate::sample::{taken_apart, told, word};

    #[test]
    fn the_sample_covers_what_it_should() {
        let sample = sample();
        let (records, lines) = taken_apart(&sample, 40);
        assert_eq!(records.len(), 420);
        let value = |line: &str| -> i64 {
            let (_, value) = line.split_once(", value ").expect("a value");
            value.parse().expect("a number")
        };
        for (kind, lines) in lines.chunks(SMALL + RANDOM).enumerate() {
            let of_kind = records.iter().filter(|r| word(r, 1) == kind as u32);
            assert_eq!(of_kind.count(), lines.len());
            assert!(told(lines, 2) >= 5);
            assert!(
                lines
                    .iter()
                    .filter(|l| l.ends_with(": fault 0, value 0"))
                    .count()
                    >= 10
            );
            assert!(lines.iter().any(|l| value(l) > 0) && lines.iter().any(|l| value(l) < 0));
        }
        let greatest = lines.iter().map(|l| value(l).unsigned_abs()).max();
        assert!(greatest > Some(1 << 62));
    }
}
