//! The topic of crate `listing`: a mesh file's fault, beside the judge, and the
//! bytes that the area program prints, beside the oracle's `areas`.

use crate::antt;
use crate::parts::good;
use crate::topic::{layers, Amount, Case, Topic};
use cli::answers::parts_of_file;
use inputs::mesh_damage::{damaged, ORDER};
use inputs::meshes::{self, Mesh};
use inputs::rng::Rng;
use inputs::stored;
use inputs::text;
use judge::file::{self, MeshFile, Split};
use judge::listing::{listing, refusal};
use judge::Fault;

/// The definitions' names, here and in `DECLARATIONS`.
const USES: &str = "\
use Rattle.listing.specs.File.{file_fault}
use Rattle.listing.specs.Listing.{areas_of}
use Rattle.text.specs.Text.{digits}
";

const DECLARATIONS: &str = "
data Case : Type 0 where
  prints : List ℕ → ℕ → List ℕ → Case
  faulted : List ℕ → ℕ → Case
  written : ℕ → ℕ → List ℕ → Case

abbrev holds : Case → Bool
holds (prints file f said) = both (eqb (file_fault file) f) (eq_nats (areas_of file) said)
holds (faulted file f) = eqb (file_fault file) f
holds (written most n said) = eq_nats (digits most n []) said
";

/// How many triangles a file has at the most.
const MOST: usize = 7;

/// More digits than any number of a listing has.
const DIGITS: usize = 25;

/// Files of good meshes, damaged meshes and damaged headers; and numbers of every
/// size.
pub fn topic(rng: &mut Rng, amount: Amount) -> Topic {
    let count = amount.random;
    let mut cases = limits();
    for _ in 0..count / 10 {
        cases.push(prints(&file::encode(&any(rng))));
        let file = any(rng);
        cases.push(faulted(&file::encode(&file)));
        cases.push(prints(&stored::damaged_file(rng, &file)));
        let fault = rng.pick(&ORDER[1..]);
        let mesh = damaged(rng, &file.mesh, &[fault]);
        cases.push(prints(&file::encode(&MeshFile { mesh, ..file })));
        let number = rng.word() >> rng.below(64);
        cases.push(written(number));
    }
    Topic {
        name: "Listing",
        modules: layers::listing(),
        uses: USES.into(),
        declarations: DECLARATIONS.into(),
        cases,
    }
}

/// Document 01's dart and an empty mesh; bytes under 20; each field of the header one below
/// what it must be, at it and one beyond, and two that are wrong; shares that leave a rest;
/// numbers about a power of ten.
fn limits() -> Vec<Case> {
    let of = |limit: u32, split: Split, mesh: Mesh| file::encode(&MeshFile { limit, split, mesh });
    let dart = meshes::linked(&[[(0, 0), (4, 0), (0, 4)], [(4, 0), (10, -2), (0, 4)]]);
    let dart = of(0, Split::Ear, dart);
    let mut cases = vec![prints(&dart), prints(&of(0, Split::Fan, Mesh::new()))];
    for length in [0, 19, 20] {
        cases.push(prints(&vec![0; length]));
        cases.push(prints(&dart[..length]));
    }
    cases.push(prints(&dart[..dart.len() - 1]));
    cases.push(prints(&[&dart[..], &[0]].concat()));
    let with = |fields: &[(usize, u32)]| {
        let mut bytes = dart.clone();
        for &(at, value) in fields {
            bytes[4 * at..4 * at + 4].copy_from_slice(&value.to_le_bytes());
        }
        prints(&bytes)
    };
    let (total, count, offset, limit, split) = (0, 1, 2, 3, 4);
    for wrong in [91, 92, 93] {
        cases.push(with(&[(total, wrong)]));
    }
    for wrong in [1, 2, 3, 1_024, 1_025, u32::MAX] {
        cases.push(with(&[(count, wrong)]));
        cases.push(with(&[(count, wrong), (split, 3)]));
    }
    for wrong in [19, 20, 21] {
        cases.push(with(&[(offset, wrong)]));
    }
    for by in [0, 1, 2, 3, 4, u32::MAX] {
        cases.push(with(&[(split, by)]));
    }
    for most in [0, 2, 3, 4, u32::MAX] {
        cases.push(with(&[(limit, most)]));
    }
    // shares of 1, 2 and 4 in 7, and of 1 in 3: each leaves a rest
    let tall = |h: i32, x: i32| [(x, 0), (x + 1, 0), (x, h)];
    for heights in [[1, 2, 4], [1, 1, 1], [1, 9_998, 1], [1, 9_999, 1]] {
        let apart: Vec<_> = heights
            .iter()
            .zip([0, 9, 18])
            .map(|(&h, x)| tall(h, x))
            .collect();
        cases.push(prints(&of(0, Split::Ear, meshes::linked(&apart))));
    }
    for number in [
        0,
        1,
        9,
        10,
        11,
        99,
        100,
        101,
        9_999,
        10_000,
        10_001,
        u64::MAX,
    ] {
        cases.push(written(number));
    }
    cases
}

fn any(rng: &mut Rng) -> MeshFile {
    MeshFile {
        limit: rng.pick(&[0, 1, 2, 3, 3, 4, 4, 5, 7, 1_026, u32::MAX]),
        split: rng.pick(&[Split::Ear, Split::Fan, Split::Centroid]),
        mesh: good(rng, MOST),
    }
}

fn printed(bytes: &[u8]) -> (Fault, String) {
    match file::decode(bytes).and_then(|f| parts_of_file(&f)) {
        Ok(parts) => (0, listing(&parts)),
        Err(fault) => (fault, refusal(fault)),
    }
}

fn prints(bytes: &[u8]) -> Case {
    let (fault, printed) = printed(bytes);
    Case::new(
        format!(
            "prints {} {fault} {}",
            antt::bytes(bytes),
            antt::bytes(printed.as_bytes())
        ),
        format!("areas_of {} is {fault} {printed:?}", text::numbers(bytes)),
    )
}

fn faulted(bytes: &[u8]) -> Case {
    let (fault, _) = printed(bytes);
    Case::new(
        format!("faulted {} {fault}", antt::bytes(bytes)),
        format!("file_fault {} is {fault}", text::numbers(bytes)),
    )
}

fn written(number: u64) -> Case {
    let text = number.to_string();
    Case::new(
        format!("written {DIGITS} {number} {}", antt::bytes(text.as_bytes())),
        format!("digits {DIGITS} {number} is {text:?}"),
    )
}
