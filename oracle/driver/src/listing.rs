//! The entry point of the area program: the bytes of a mesh file, to the text that is
//! printed for them, on the front of lent text. Refusals are the judge's, parts the
//! Rust's (`cli`'s answers, as the oracle's own `areas` prints them).

use crate::entry::EntryPoint;
use crate::lent::{Handed, Lent};
use crate::mesh::{any, SHARE};
use cli::answers::parts_of_file;
use inputs::mesh_damage::damaged;
use inputs::meshes::{self, Mesh};
use inputs::rng::Rng;
use inputs::{contours, stored, text};
use judge::file::{self, MeshFile, Split};
use judge::limits::{NONE, TRIANGLES};
use judge::listing::{listing, refusal};
use judge::mesh::Triangle;
use std::cell::RefCell;

/// How long the lent text is: as long as any answer (area_listing's `LISTING`).
pub const TEXT: usize = 233_522;

/// It is given the Rattle function that it asks.
pub fn listing_beside<F>(rattle: F) -> Listing<F>
where
    F: Fn(Handed<u8>, Handed<u8>) -> usize,
{
    Listing { rattle }
}

pub struct Listing<F> {
    rattle: F,
}

/// What is printed, how long it is said to be, and whether the text past it, the
/// places on either side that are not lent, and the file's bytes are as they were.
#[derive(Debug, PartialEq)]
pub struct Printed {
    pub length: usize,
    pub front: String,
    pub kept: bool,
}

impl Printed {
    fn whole(text: String) -> Self {
        Self {
            length: text.len(),
            front: text,
            kept: true,
        }
    }

    /// The number of a refusal, 0 for a listing.
    fn fault(&self) -> u32 {
        let number = self.front.strip_prefix("refused ");
        let number = number.and_then(|n| n.strip_suffix('\n'));
        number.map_or(0, |n| n.parse().expect("a refusal has a number"))
    }
}

/// What document 01 and the Rust print for a file.
pub fn printed(bytes: &[u8]) -> Printed {
    Printed::whole(match file::decode(bytes).and_then(|f| parts_of_file(&f)) {
        Ok(parts) => listing(&parts),
        Err(fault) => refusal(fault),
    })
}

// ---- the lent text

thread_local! {
    /// It is long, and therefore made once: after each call it begins anew.
    static LENT: RefCell<Lent<u8>> = RefCell::new(Lent::places(TEXT));
}

/// The Rattle function's answer. The file's bytes are lent as every list is.
fn asked(rattle: impl Fn(Handed<u8>, Handed<u8>) -> usize, bytes: &[u8]) -> Printed {
    let mut list = Lent::list(bytes);
    LENT.with_borrow_mut(|text| {
        let length = rattle(list.handed(), text.handed());
        let written = length.min(TEXT);
        let front = String::from_utf8_lossy(&text.slice()[..written]).into_owned();
        let kept = text.begun_anew(written) && list.holds(bytes);
        Printed {
            length,
            front,
            kept,
        }
    })
}

// ---- inputs

/// Document 01's dart.
fn dart() -> Mesh {
    let triangle = |points, neighbours| Triangle { points, neighbours };
    vec![
        triangle([(0, 0), (4, 0), (0, 4)], [1, NONE, NONE]),
        triangle([(4, 0), (10, -2), (0, 4)], [NONE, 0, NONE]),
    ]
}

fn of(mesh: Mesh, limit: u32, split: Split) -> Vec<u8> {
    file::encode(&MeshFile { limit, split, mesh })
}

const SPLITS: [Split; 3] = [Split::Ear, Split::Fan, Split::Centroid];

/// The words of a header that can be wrong, each with values about the right one and
/// at the ends of 32 bits: total, count, offset, split. The total and the count also
/// of one triangle more and one fewer.
const WRONG: [(usize, &[u32]); 4] = [
    (0, &[0, 19, 20, 56, 91, 93, 128, u32::MAX]),
    (1, &[0, 1, 3, 1_024, 1_025, u32::MAX]),
    (2, &[0, 19, 21, 24, 56, u32::MAX]),
    (4, &[3, 4, 256, u32::MAX]),
];

fn with(bytes: &[u8], word: usize, value: u32) -> Vec<u8> {
    let mut out = bytes.to_vec();
    out[4 * word..4 * word + 4].copy_from_slice(&value.to_le_bytes());
    out
}

/// The dart's file with each field of the header wrong alone and every two, in as many
/// bytes as it has, one fewer and one more, and without or with one more record.
fn wrong_headers() -> Vec<Vec<u8>> {
    let good = of(dart(), 0, Split::Ear);
    let mut out = vec![good.clone()];
    for (i, &(word, values)) in WRONG.iter().enumerate() {
        for &value in values {
            let one = with(&good, word, value);
            for &(other, more) in &WRONG[i + 1..] {
                out.extend(more.iter().map(|&value| with(&one, other, value)));
            }
            out.push(one);
        }
    }
    let lengths = [91, 93, 56, 128];
    let resized = out.iter().flat_map(|bytes| {
        lengths.map(|length| {
            let mut bytes = bytes.clone();
            bytes.resize(length, 0);
            bytes
        })
    });
    let resized: Vec<_> = resized.collect();
    out.extend(resized);
    out
}

/// Every length from 0 to 100: the dart's file as far as it goes, and zeros.
fn every_length() -> impl Iterator<Item = Vec<u8>> {
    (0..=100).flat_map(|length| {
        let mut bytes = of(dart(), 0, Split::Ear);
        bytes.resize(length, 0);
        [bytes, vec![0; length]]
    })
}

/// The limits of number and area, with each split; the longest good file with more
/// bytes behind it.
fn limits() -> impl Iterator<Item = Vec<u8>> {
    let numbers = [0, TRIANGLES - 1, TRIANGLES, TRIANGLES + 1].map(meshes::apart);
    let mut rng = Rng::new(0);
    let areas = [false, true].map(|one_more| meshes::area_limit(&mut rng, one_more));
    let meshes = numbers.into_iter().chain(areas);
    let files = meshes.flat_map(|mesh| SPLITS.map(|split| of(mesh.clone(), 3, split)));
    let longer = [1, 2, 36, 1_000].map(|more| {
        let mut bytes = of(meshes::apart(TRIANGLES), 0, Split::Ear);
        bytes.resize(bytes.len() + more, 0);
        bytes
    });
    files.chain(longer)
}

/// Contours at each limit and split: shares that divide and that do not, corners of
/// either sign and of any size.
fn contours_listed() -> impl Iterator<Item = Vec<u8>> {
    let contours = contours::worth_splitting().into_iter();
    contours.flat_map(|contour| {
        let mesh = meshes::region(&contour);
        let cuts = (0..=8).flat_map(|limit| SPLITS.map(|split| (limit, split)));
        cuts.map(move |(limit, split)| of(mesh.clone(), limit, split))
            .collect::<Vec<_>>()
    })
}

/// A file of a mesh that is good or not, or with its header or its length damaged.
fn any_file(rng: &mut Rng) -> Vec<u8> {
    let (good, faults) = any(rng);
    let file = MeshFile {
        limit: rng.pick(&[0, 1, 2, 3, 3, 4, 4, 5, 6, 7, 10, 40, 1_026, u32::MAX]),
        split: rng.pick(&SPLITS),
        mesh: damaged(rng, &good, &faults),
    };
    match rng.below(4) {
        0 => stored::damaged_file(rng, &file),
        _ => file::encode(&file),
    }
}

/// All of the above, and so many random ones.
pub(crate) fn files(rng: &mut Rng, count: u64) -> Box<dyn Iterator<Item = Vec<u8>> + '_> {
    let random = (0..count).map(move |_| any_file(rng));
    let fixed = every_length().chain(wrong_headers());
    let fixed = fixed.chain(limits()).chain(contours_listed());
    Box::new(fixed.chain(random))
}

/// Shorter files, a good one also with a record fewer and its header to match; then words
/// that are 0.
pub(crate) fn simpler_file(bytes: &[u8]) -> Vec<Vec<u8>> {
    let mut out: Vec<Vec<u8>> = Vec::new();
    if let Ok(file) = file::decode(bytes) {
        let fewer = |mesh: Mesh| of(mesh, file.limit, file.split);
        let halves = [file.mesh.len() / 2, file.mesh.len().saturating_sub(1)];
        let halves = halves.into_iter().filter(|&k| k < file.mesh.len());
        out.extend(halves.map(|k| fewer(meshes::apart(k))));
    }
    out.extend(simpler_bytes(bytes));
    out
}

/// Half as many, one fewer, and with each of the first words 0.
pub(crate) fn simpler_bytes(bytes: &[u8]) -> Vec<Vec<u8>> {
    let n = bytes.len();
    let lengths = [n / 2, n.saturating_sub(1)].into_iter().filter(|&k| k < n);
    let words = (0..n.min(400) / 4).filter(|&w| bytes[4 * w..4 * w + 4] != [0; 4]);
    lengths
        .map(|k| bytes[..k].to_vec())
        .chain(words.map(|word| with(bytes, word, 0)))
        .collect()
}

pub(crate) fn shown(bytes: &[u8]) -> String {
    match bytes.len() {
        0..=400 => format!("{} bytes {}", bytes.len(), text::numbers(bytes)),
        _ => format!("{} bytes {} ..", bytes.len(), text::numbers(&bytes[..400])),
    }
}

// ---- the entry point

impl<F> EntryPoint for Listing<F>
where
    F: Fn(Handed<u8>, Handed<u8>) -> usize,
{
    type Input = Vec<u8>;
    type Answer = Printed;

    fn name(&self) -> &'static str {
        "listing"
    }

    fn faults(&self) -> &'static [u32] {
        &[13, 1, 2, 3, 4, 5, 6, 11]
    }

    fn inputs<'a>(&self, rng: &'a mut Rng, count: u64) -> Box<dyn Iterator<Item = Vec<u8>> + 'a> {
        files(rng, count / SHARE / 10)
    }

    fn rattle(&self, bytes: &Vec<u8>) -> Printed {
        asked(&self.rattle, bytes)
    }

    fn rust(&self, bytes: &Vec<u8>) -> Printed {
        printed(bytes)
    }

    fn fault(&self, answer: &Printed) -> u32 {
        answer.fault()
    }

    fn simpler(&self, bytes: &Vec<u8>) -> Vec<Vec<u8>> {
        simpler_file(bytes)
    }

    fn show(&self, bytes: &Vec<u8>) -> String {
        shown(bytes)
    }
}

/// The driver itself, tried on functions of known worth.
#[cfg(test)]
mod tests {
    use super::*;
    use crate::entry::{run, Report};
    use crate::lent::overruns::{self, plant, seen};

    const COUNT: u64 = 100_000;

    type WritesListing = fn(&[u8], &mut [u8]) -> usize;

    /// A function on slices as the entry point asks it. Safe: the memory is lent.
    fn asked(f: WritesListing) -> impl Fn(Handed<u8>, Handed<u8>) -> usize {
        move |bytes, out| unsafe { f(bytes.slice(), out.slice()) }
    }

    fn put(text: &str, out: &mut [u8]) -> usize {
        out[..text.len()].copy_from_slice(text.as_bytes());
        text.len()
    }

    fn right(bytes: &[u8], out: &mut [u8]) -> usize {
        put(&printed(bytes).front, out)
    }

    #[test]
    fn a_right_function_passes() {
        let report = run(&listing_beside(asked(right)), 1, COUNT);
        assert!(report.passed(), "{report}");
        assert!(report.faults.values().all(|&times| times > 20), "{report}");
    }

    #[test]
    fn overruns_are_caught() {
        for at in overruns::ALL {
            let entry = listing_beside(move |bytes, out| {
                let told = asked(right)(bytes, out);
                plant(bytes, at);
                told
            });
            seen(&entry, at);
        }
        for at in overruns::ENDS {
            let entry = listing_beside(move |bytes, out| {
                let told = asked(right)(bytes, out);
                plant(out, at);
                told
            });
            seen(&entry, at);
        }
    }

    fn caught(wrong: WritesListing) -> String {
        let report: Report = run(&listing_beside(asked(wrong)), 1, COUNT);
        assert!(report.differ > 0 && !report.passed());
        report.smallest.expect("a difference is shown")
    }

    #[test]
    fn thirteen_before_one_is_caught() {
        let small = caught(|bytes, out| {
            let offset = bytes.len() >= 20 && bytes[8..12] != [20, 0, 0, 0];
            match offset {
                true => put("refused 13\n", out),
                false => right(bytes, out),
            }
        });
        assert!(small.contains("refused 1\\n"), "{small}");
    }

    #[test]
    fn a_total_unlike_the_bytes_accepted_is_caught() {
        let small = caught(|bytes, out| {
            let (short, longer) = (bytes.len() < 92, bytes.len() > 92);
            let good = of(dart(), 0, Split::Ear);
            match longer && !short && bytes[..92] == good[..] {
                true => right(&good, out),
                false => right(bytes, out),
            }
        });
        assert!(small.starts_with("93 bytes"), "{small}");
    }

    #[test]
    fn a_byte_past_the_text_is_caught() {
        let small = caught(|bytes, out| {
            let length = right(bytes, out);
            out[length] = 0;
            length
        });
        assert!(small.starts_with("0 bytes"), "{small}");
    }

    #[test]
    fn a_share_rounded_up_is_caught() {
        let small = caught(|bytes, out| {
            let text = printed(bytes).front.replace(" 3333 ", " 3334 ");
            put(&text, out)
        });
        assert!(small.contains("3333"), "{small}");
    }
}
