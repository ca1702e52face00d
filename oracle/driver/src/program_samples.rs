//! The stored samples of the programs parts, contours, placed and pairshard
//! (vectors/README.md has the layout): what each reads, and what it has to write, with the
//! Rust's parts and contours and the judge's refusals, places and jobs. The same every
//! time.

use crate::sample::{record, words, Case, Sample};
use cli::programs::{contours, parts};
use inputs::rng::Rng;
use inputs::two_files::{desk, edges, file, with_fault, FAULTS};
use inputs::{coordinates, meshes, placements, shards, stored};
use judge::file::{MeshFile, Split};
use judge::limits::TRIANGLES;
use judge::pairs::Operation;
use judge::programs::{pairshard, placed};
use judge::{Fault, Point};

const SEED: u64 = 20_261_120;

/// Random inputs that are accepted, and those of each fault.
const RANDOM: usize = 20;
const ALONE: usize = 3;

/// A record has at most so many bytes, but for one of 1,025 triangles.
const RECORD: usize = 2_048;

// ---- records and lines

/// A head whose other words are 0, and what is read.
fn record_of(input: &[u8]) -> Vec<u8> {
    record(&[words(&[0; 7]), input.to_vec()])
}

fn is_refused(output: &[u8]) -> bool {
    output.starts_with(b"refused ")
}

/// What is written as text stands below the case's number, as it is.
fn text_case(input: &[u8], output: Vec<u8>) -> Case {
    let text = String::from_utf8(output).expect("a text");
    Case {
        record: record_of(input),
        line: format!(":\n{}", text.trim_end()),
    }
}

/// What is written as words stands behind the case's number: how many bytes, and each
/// word as a signed number; or the refusal.
fn words_case(input: &[u8], output: Vec<u8>) -> Case {
    if is_refused(&output) {
        return text_case(input, output);
    }
    let number = |w: &[u8]| i32::from_le_bytes(w.try_into().expect("four bytes"));
    let each: String = output
        .chunks(4)
        .map(|w| format!(" {}", number(w)))
        .collect();
    Case {
        record: record_of(input),
        line: format!(":\n{} bytes{each}", output.len()),
    }
}

fn with(bytes: &[u8], word: usize, value: u32) -> Vec<u8> {
    let mut out = bytes.to_vec();
    out[4 * word..4 * word + 4].copy_from_slice(&value.to_le_bytes());
    out
}

fn headed(head: &[u32], bytes: &[u8]) -> Vec<u8> {
    [words(head), bytes.to_vec()].concat()
}

/// What `make` makes, again where it is not as it has to be or too long.
fn until(make: impl FnMut() -> Vec<u8>, is_right: impl Fn(&[u8]) -> bool) -> Vec<u8> {
    let short = |bytes: &Vec<u8>| record_of(bytes).len() <= RECORD && is_right(bytes);
    std::iter::repeat_with(make)
        .find(short)
        .expect("one of many")
}

// ---- files

/// A good file of few triangles.
fn small(rng: &mut Rng) -> Vec<u8> {
    let make = || {
        let MeshFile { limit, split, .. } = stored::mesh_file(rng, 20);
        file(placements::mesh(rng), limit, split)
    };
    until(make, |bytes| bytes.len() <= 20 + 36 * 12)
}

/// A file with this fault; of 1 with no more than its header, where `whole` is not asked
/// for.
fn hurt(rng: &mut Rng, fault: Fault, whole: bool) -> Vec<u8> {
    match (fault, whole) {
        (1, true) => file(meshes::apart(TRIANGLES + 1), 0, Split::Ear),
        (1, false) => with(&small(rng), 1, TRIANGLES as u32 + 1),
        _ => until(
            || with_fault(rng, fault),
            |bytes| bytes.len() <= 20 + 36 * 12,
        ),
    }
}

/// The square by each split, and whole; the unit square by centroid; the dart; none.
fn on_the_desk() -> Vec<Vec<u8>> {
    let (dart, square) = (desk()[..92].to_vec(), desk()[92..].to_vec());
    let unit = meshes::linked(&[[(0, 0), (1, 0), (1, 1)], [(0, 0), (1, 1), (0, 1)]]);
    let cut = |split: u32| with(&square, 4, split);
    let mut out: Vec<Vec<u8>> = (0..3).map(cut).collect();
    out.push(file(unit, 3, Split::Centroid));
    out.push(with(&square, 3, 4));
    out.extend([dart, file(vec![], 0, Split::Ear)]);
    out
}

/// Each fault of one file in a few, then lengths and header fields that are wrong.
fn parts_inputs() -> Vec<Vec<u8>> {
    let mut rng = Rng::new(SEED);
    let mut out = on_the_desk();
    out.extend((0..RANDOM).map(|_| small(&mut rng)));
    for fault in FAULTS {
        out.extend((0..ALONE).map(|_| hurt(&mut rng, fault, false)));
    }
    let dart = &desk()[..92];
    out.extend([0, 3, 4, 19, 20, 56, 91].map(|length| dart[..length].to_vec()));
    out.extend([1, 4, 36].map(|more| [dart, &vec![0; more]].concat()));
    let fields = [
        (0, 91),
        (0, 93),
        (1, 1),
        (1, 3),
        (1, 1_025),
        (2, 24),
        (4, 3),
    ];
    out.extend(fields.map(|(word, value)| with(dart, word, value)));
    out
}

/// Two files that are refused: each fault of either, the left's before the right's, too
/// few bytes and too many, and an empty mesh.
fn refused_files(rng: &mut Rng) -> Vec<Vec<u8>> {
    let mut out = Vec::new();
    for (k, fault) in FAULTS.into_iter().enumerate() {
        out.push([hurt(rng, fault, true), small(rng)].concat());
        out.push([small(rng), hurt(rng, fault, false)].concat());
        let other = FAULTS[(k + 3) % FAULTS.len()];
        if fault != 1 {
            out.push([hurt(rng, fault, true), hurt(rng, other, false)].concat());
        }
    }
    let both = desk();
    let lengths = [0, 3, 19, 20, 91, 92, 95, 111, 112, 183];
    out.extend(lengths.map(|length| both[..length].to_vec()));
    out.extend([1, 36].map(|more| [&both[..], &vec![0; more]].concat()));
    out.extend([0, 20, 56, 91, 93, 184, u32::MAX].map(|total| with(&both, 0, total)));
    let none = file(vec![], 0, Split::Ear);
    let one = &both[..92];
    out.extend([
        [one, &none].concat(),
        [&none, one].concat(),
        [&none[..], &none].concat(),
    ]);
    out
}

fn contours_inputs() -> Vec<Vec<u8>> {
    let mut rng = Rng::new(SEED);
    let k = file(meshes::linked(&[[(0, 0), (2, 0), (0, 2)]]), 0, Split::Ear);
    let good = [[&k[..], &k].concat(), desk()];
    let both = |files: &Vec<u8>| [0, 1].map(|operation| headed(&[operation], files));
    let mut out: Vec<Vec<u8>> = good.iter().flat_map(both).collect();
    out.extend(
        edges(Operation::Sum)
            .iter()
            .map(|files| headed(&[0], files)),
    );
    out.extend(
        edges(Operation::Difference)
            .iter()
            .map(|files| headed(&[1], files)),
    );
    for turn in 0..RANDOM as u32 {
        let make = || headed(&[turn % 2], &[small(&mut rng), small(&mut rng)].concat());
        out.push(until(make, |input| {
            let output = contours(input);
            !is_refused(&output) && output.len() <= 8 * RECORD
        }));
    }
    let refused = refused_files(&mut rng).into_iter().enumerate();
    out.extend(refused.map(|(k, files)| headed(&[k as u32 % 2], &files)));
    out.extend([2, 256, u32::MAX].map(|operation| headed(&[operation], &desk())));
    out.extend([0, 3].map(|length| vec![0; length]));
    out
}

fn at_place((x, y): Point, files: &[u8]) -> Vec<u8> {
    headed(&[x as u32, y as u32], files)
}

/// The triangle K by itself, at every place about it.
fn about() -> Vec<Vec<u8>> {
    let k = file(meshes::linked(&[[(0, 0), (2, 0), (0, 2)]]), 0, Split::Ear);
    let places = (-3..=3).flat_map(|x| (-3..=3).map(move |y| (x, y)));
    places
        .map(|place| at_place(place, &[&k[..], &k].concat()))
        .collect()
}

/// Random places by meshes that small numbers have, so that each answer is there.
fn random_places(rng: &mut Rng) -> Vec<Vec<u8>> {
    let mut out = Vec::new();
    for told in ["apart\n", "touching\n", "overlapping\n"] {
        for _ in 0..RANDOM / 2 {
            let make = || {
                let count = 1 + rng.below(6);
                let meshes = [(); 2].map(|()| meshes::soup(rng, count, 4));
                let files = meshes.map(|mesh| file(mesh, 0, Split::Fan)).concat();
                at_place(coordinates::point_within(rng, 9), &files)
            };
            out.push(until(make, |input| placed(input) == told.as_bytes()));
        }
    }
    out
}

fn placed_inputs() -> Vec<Vec<u8>> {
    let mut rng = Rng::new(SEED);
    let mut out = about();
    out.extend(random_places(&mut rng));
    let edges = edges(Operation::Difference);
    out.extend(edges.iter().map(|files| at_place((0, 0), files)));
    let refused = refused_files(&mut rng);
    out.extend(refused.iter().map(|files| at_place((1, 1), files)));
    let limit = 1 << 30;
    for place in [
        (limit, 0),
        (-limit, 0),
        (0, limit),
        (0, -limit),
        (i32::MIN, i32::MAX),
    ] {
        out.push(at_place(place, &desk()));
        out.push(at_place(place, &desk()[..19]));
    }
    out.extend([(limit - 1, 0), (0, 1 - limit)].map(|place| at_place(place, &desk())));
    out.extend([0, 4, 7].map(|length| vec![0xff; length]));
    out
}

fn pairshard_inputs() -> Vec<Vec<u8>> {
    let mut rng = Rng::new(SEED);
    let mut out: Vec<Vec<u8>> = shards::every_two().collect();
    out.extend(shards::wrong_words());
    let whole = shards::asked(1, 3, &shards::small_job());
    let lengths = [0, 4, 7, 8, 11, 12, 28, 31, 32, 35, 36, whole.len() - 1];
    out.extend(lengths.map(|length| whole[..length].to_vec()));
    out.extend([1, 4].map(|more| [&whole[..], &vec![0; more]].concat()));
    let broken = shards::broken(&mut rng, 1).into_iter();
    out.extend(broken.filter(|input| record_of(input).len() <= RECORD));
    out.extend((0..RANDOM).map(|_| until(|| shards::any(&mut rng), |_| true)));
    out
}

// ---- the samples

fn sample(inputs: &[Vec<u8>], case: impl Fn(&[u8]) -> Case) -> Sample {
    let cases: Vec<Case> = inputs.iter().map(|input| case(input)).collect();
    Sample::of(&cases)
}

pub fn parts_sample() -> Sample {
    sample(&parts_inputs(), |input| words_case(input, parts(input)))
}

pub fn contours_sample() -> Sample {
    sample(&contours_inputs(), |input| {
        text_case(input, contours(input))
    })
}

pub fn placed_sample() -> Sample {
    sample(&placed_inputs(), |input| text_case(input, placed(input)))
}

pub fn pairshard_sample() -> Sample {
    sample(&pairshard_inputs(), |input| {
        words_case(input, pairshard(input))
    })
}

#[cfg(test)]
mod tests {
    use super::*;
    use crate::sample::parted;
    use judge::file::encode;
    use std::collections::BTreeMap;

    /// How often each fault is told, 0 for an answer.
    fn tally(inputs: &[Vec<u8>], writes: fn(&[u8]) -> Vec<u8>) -> BTreeMap<Fault, usize> {
        let mut out = BTreeMap::new();
        for input in inputs {
            let output = String::from_utf8_lossy(&writes(input)).into_owned();
            let number = output.strip_prefix("refused ").map(str::trim_end);
            *out.entry(number.map_or(0, |n| n.parse().unwrap()))
                .or_default() += 1;
        }
        out
    }

    #[test]
    fn each_sample_has_every_refusal_and_answers() {
        let all: [(Vec<Vec<u8>>, fn(&[u8]) -> Vec<u8>, &[Fault]); 4] = [
            (parts_inputs(), parts, &FAULTS),
            (
                contours_inputs(),
                contours,
                &[13, 1, 2, 3, 4, 5, 6, 11, 10, 20],
            ),
            (placed_inputs(), placed, &[13, 2, 1, 3, 4, 5, 6, 11, 10, 20]),
            (pairshard_inputs(), pairshard, &[13, 7]),
        ];
        for (inputs, writes, faults) in all {
            let told = tally(&inputs, writes);
            assert!(told[&0] > RANDOM, "{told:?}");
            assert!(faults.iter().all(|fault| told[fault] >= 2), "{told:?}");
            assert_eq!(told.len(), faults.len() + 1, "{told:?}");
        }
    }

    #[test]
    fn records_are_short_but_for_those_of_fault_1() {
        let samples = [
            parts_sample,
            contours_sample,
            placed_sample,
            pairshard_sample,
        ];
        let long: Vec<usize> = samples
            .iter()
            .map(|sample| {
                let sample = sample();
                let records = parted(&sample.cases);
                assert_eq!(records.len(), sample.count);
                records.iter().filter(|r| r.len() > RECORD).count()
            })
            .collect();
        assert_eq!(long, [0, 1, 1, 0]);
    }

    #[test]
    fn document_01s_examples_are_told() {
        let first = |sample: Sample| sample.lines.lines().take(4).collect::<Vec<_>>().join("\n");
        let ears = "case 0:\n68 bytes 2 6 0 3 6 0 4 0 0 4 0 4 0 4 4 0 4";
        assert!(first(parts_sample()).starts_with(ears));
        let sum = "case 0:\ncontours 1 corners 3 bounds 0 4 0 4\n0 0 3 (0,0) (4,0) (0,4)";
        assert!(first(contours_sample()).starts_with(sum));
        assert_eq!(first(placed_sample()), "case 0:\napart\ncase 1:\napart");
    }

    #[test]
    fn a_sample_is_the_same_every_time() {
        let all = || {
            [
                parts_inputs(),
                contours_inputs(),
                placed_inputs(),
                pairshard_inputs(),
            ]
        };
        assert_eq!(all(), all());
        assert!(parts_inputs().contains(&encode(&MeshFile {
            limit: 0,
            split: Split::Ear,
            mesh: vec![],
        })));
    }
}
