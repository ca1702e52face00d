//! The programs `parts`, `contours`, `placed` and `pairshard`, each run as a process of
//! its own, beside what the judge and the Rust say that it has to write. Compared are all
//! of standard output and the exit status, which is 0 for answers and refusals alike.

use crate::entry::EntryPoint;
use crate::listing::{self, shown, simpler_bytes, simpler_file};
use crate::{mesh, pairs_sample};
use cli::answers::{pair_contours, parts, Cut};
use cli::programs::Writes;
use inputs::coordinates::{self, EDGE};
use inputs::rng::Rng;
use inputs::table_calls::Inputs;
use inputs::{placements, shards, two_files};
use judge::file::{self, MeshFile};
use judge::job::{self, Job};
use judge::pairs::{Operand, Operation};
use judge::table::Table;
use judge::{Contour, Point};
use std::fmt::{self, Debug};
use std::io::Write;
use std::path::Path;
use std::process::{Command, Stdio};
use std::thread;

/// What a program did: its exit status, none where a signal ended it, and all that it
/// wrote to standard output.
#[derive(Clone, PartialEq, Eq)]
pub struct Ran {
    pub status: Option<i32>,
    pub output: Vec<u8>,
}

impl Ran {
    /// As every program has to end.
    pub fn well(output: Vec<u8>) -> Self {
        let status = Some(0);
        Self { status, output }
    }

    /// The number of a refusal, 0 for an answer.
    fn fault(&self) -> u32 {
        let text = std::str::from_utf8(&self.output).unwrap_or_default();
        let number = text.strip_prefix("refused ");
        let number = number.and_then(|n| n.strip_suffix('\n'));
        number.map_or(0, |n| n.parse().expect("a refusal has a number"))
    }
}

/// An answer can have a hundred million bytes: the first of them tell enough.
impl Debug for Ran {
    fn fmt(&self, f: &mut fmt::Formatter<'_>) -> fmt::Result {
        let (length, front) = (self.output.len(), self.output.len().min(300));
        let text = self.output[..front].escape_ascii();
        write!(f, "status {:?}, {length} bytes \"{text}\"", self.status)
    }
}

/// Runs a program on these bytes. They are written by a thread of their own, so that
/// neither process waits with a full pipe for the other; a program may end before it has
/// read all.
pub fn child(program: &Path, bytes: &[u8]) -> Ran {
    let told = |error| panic!("{}: {error}", program.display());
    let mut command = Command::new(program);
    let piped = command.stdin(Stdio::piped()).stdout(Stdio::piped());
    let mut child = piped.spawn().unwrap_or_else(told);
    let mut stdin = child.stdin.take().expect("it is piped");
    thread::scope(|scope| {
        scope.spawn(move || drop(stdin.write_all(bytes)));
        let ended = child.wait_with_output();
        let ended = ended.unwrap_or_else(|error| panic!("{}: {error}", program.display()));
        Ran {
            status: ended.status.code(),
            output: ended.stdout,
        }
    })
}

// ---- inputs

/// Words, and then the bytes.
fn headed(words: &[u32], bytes: &[u8]) -> Vec<u8> {
    let head: Vec<u8> = words.iter().flat_map(|w| w.to_le_bytes()).collect();
    [&head[..], bytes].concat()
}

/// How often each two faults are put together, by name.
const TIMES: usize = 3;

/// One of the largest for so many random ones, each of which costs a process alone.
const LARGEST: u64 = 600;

/// Two files that are asked about in every way, and so many of the largest.
fn listed_files(rng: &mut Rng, count: u64) -> Vec<Vec<u8>> {
    let mut out = two_files::by_name(rng, TIMES);
    out.extend(two_files::limits(rng));
    let largest = two_files::largest(rng).into_iter();
    out.extend(largest.take((count / LARGEST) as usize));
    out
}

/// Two files at every length, and with every field of their headers wrong.
fn misshapen_files() -> impl Iterator<Item = Vec<u8>> {
    two_files::every_length().chain(two_files::wrong_headers())
}

/// As for the listing, and each fault by name.
fn of_parts(rng: &mut Rng, count: u64) -> Inputs<'_, Vec<u8>> {
    let faults = two_files::FAULTS.repeat(4 * TIMES).into_iter();
    let by_name: Vec<_> = faults.map(|f| two_files::with_fault(rng, f)).collect();
    Box::new(by_name.into_iter().chain(listing::files(rng, count)))
}

/// Files behind a head that is refused: good ones, ones with a fault, none.
fn behind_a_wrong_head() -> [Vec<u8>; 3] {
    let mut broken = two_files::desk();
    broken[8] = 24;
    [two_files::desk(), broken, vec![]]
}

fn of_contours(rng: &mut Rng, count: u64) -> Inputs<'_, Vec<u8>> {
    let numbered = misshapen_files().enumerate();
    let mut fixed: Vec<Vec<u8>> = numbered
        .map(|(k, files)| headed(&[k as u32 / 2 % 2], &files))
        .collect();
    for (number, operation) in [(0, Operation::Sum), (1, Operation::Difference)] {
        let mut files = listed_files(rng, count);
        files.extend(two_files::edges(operation));
        fixed.extend(files.iter().map(|files| headed(&[number], files)));
    }
    for operation in [2, 3, 256, 1 << 24, 1 << 31, u32::MAX] {
        fixed.extend(behind_a_wrong_head().map(|files| headed(&[operation], &files)));
    }
    fixed.extend((0..4).map(|length| vec![0; length]));
    let random = (0..count).map(move |_| {
        let operation = rng.below(2) as u32;
        headed(&[operation], &two_files::any(rng))
    });
    Box::new(fixed.into_iter().chain(random))
}

/// A mesh's parts, within its own bounds.
fn operand(file: &MeshFile) -> Operand {
    let parts = parts(&file.mesh, Cut::None).expect("an accepted mesh");
    Operand {
        table: Table::of(&parts),
        bounds: judge::two_files::bounds(&file.mesh),
    }
}

/// The contours of two files' differences; none where they are refused.
fn differences(files: &[u8]) -> Vec<Contour> {
    let Ok(files) = judge::two_files::decode(files) else {
        return Vec::new();
    };
    let [left, right] = files.each_ref().map(operand);
    pair_contours(Operation::Difference, &left, &right).unwrap_or_default()
}

/// Two files by so many places: on corners and edges of the contours, inside and just
/// beside, and where there are none anywhere, seldom out of range.
fn by_places(rng: &mut Rng, files: &[u8], times: usize) -> Vec<Vec<u8>> {
    let contours = differences(files);
    let mut place = || match contours.is_empty() && !rng.once_in(20) {
        true => coordinates::point(rng),
        false => placements::place(rng, &contours),
    };
    (0..times).map(|_| at_place(place(), files)).collect()
}

fn at_place((x, y): Point, files: &[u8]) -> Vec<u8> {
    headed(&[x as u32, y as u32], files)
}

/// A coordinate about the ends of the range and of 32 bits.
const ENDS: [i32; 8] = [
    -EDGE,
    EDGE,
    -EDGE - 1,
    EDGE + 1,
    -EDGE - 2,
    EDGE + 2,
    i32::MIN,
    i32::MAX,
];

/// By how many places two files are asked about.
const PLACES: usize = 4;

fn of_placed(rng: &mut Rng, count: u64) -> Inputs<'_, Vec<u8>> {
    let mut fixed = Vec::new();
    for files in misshapen_files() {
        fixed.extend(by_places(rng, &files, 1));
    }
    let edges = two_files::edges(Operation::Difference);
    for files in listed_files(rng, count).iter().chain(&edges) {
        fixed.extend(by_places(rng, files, 2));
    }
    for end in ENDS {
        for place in [(end, 0), (0, end), (end, end)] {
            fixed.extend(behind_a_wrong_head().map(|files| at_place(place, &files)));
        }
    }
    fixed.extend((0..8).flat_map(|length| [vec![0; length], vec![0xff; length]]));
    let random = (0..count.div_ceil(PLACES as u64)).flat_map(move |_| {
        let files = two_files::any(rng);
        by_places(rng, &files, PLACES)
    });
    Box::new(fixed.into_iter().chain(random))
}

fn of_pairshard(rng: &mut Rng, count: u64) -> Inputs<'_, Vec<u8>> {
    let jobs = pairs_sample::jobs().into_iter();
    let numbers = [(0, u32::MAX), (0, 1), (1, 2), (1, 0)];
    let sampled = jobs.flat_map(move |job| numbers.map(|(from, to)| shards::asked(from, to, &job)));
    let fixed = shards::every_two().chain(shards::every_length());
    let fixed = fixed.chain(shards::wrong_words()).chain(shards::limits());
    let fixed = fixed.chain(shards::broken(rng, TIMES)).chain(sampled);
    let random = (0..count).map(move |_| shards::any(rng));
    Box::new(fixed.chain(random))
}

// ---- simpler inputs

/// How many bytes two files have at the most where more is tried than to leave some out.
const SHORT: usize = 4_000;

/// The same head with fewer or simpler triangles on one side, where both files are
/// accepted; then what is simpler of any bytes.
fn simpler_files(bytes: &[u8], words: usize) -> Vec<Vec<u8>> {
    let mut out = Vec::new();
    let head = bytes.len().min(4 * words);
    if let Ok(files) = judge::two_files::decode(&bytes[head..]) {
        for side in [0, 1] {
            for mesh in mesh::simpler(&files[side].mesh) {
                let mut simpler = files.clone();
                simpler[side].mesh = mesh;
                let encoded = simpler.map(|file| file::encode(&file)).concat();
                out.push([&bytes[..head], &encoded].concat());
            }
        }
    }
    // of long ones only the shorter: each costs as much as a million contours may
    let tried = if bytes.len() <= SHORT { usize::MAX } else { 2 };
    out.extend(simpler_bytes(bytes).into_iter().take(tried));
    out
}

/// The same numbers with one part fewer on one side, where the job can be read.
fn simpler_shard(bytes: &[u8]) -> Vec<Vec<u8>> {
    let mut out = Vec::new();
    let numbers = bytes.len().min(8);
    if let Ok(job) = job::decode(&bytes[numbers..]) {
        let mut push = |job: &Job| out.push([&bytes[..numbers], &job::encode(job)].concat());
        for table in fewer(&job.left.table) {
            let mut simpler = job.clone();
            simpler.left.table = table;
            push(&simpler);
        }
        for table in fewer(&job.right.table) {
            let mut simpler = job.clone();
            simpler.right.table = table;
            push(&simpler);
        }
    }
    out.extend(simpler_bytes(bytes));
    out
}

/// A table that keeps its rules without half of its parts, and without one.
fn fewer(table: &Table) -> Vec<Table> {
    if judge::table::breaks_starts(table) || table.parts() == 0 {
        return Vec::new();
    }
    let contours = table.contours();
    let (half, last) = (contours.len() / 2, contours.len() - 1);
    let some = [&contours[half..], &contours[..half], &contours[..last]];
    let shorter = some.into_iter().filter(|some| some.len() < contours.len());
    shorter.map(Table::of).collect()
}

// ---- the programs

type MakesInputs = for<'a> fn(&'a mut Rng, u64) -> Inputs<'a, Vec<u8>>;

/// A program by its name: what it has to write, and what is asked of it.
pub struct Program {
    pub name: &'static str,
    pub writes: Writes,
    faults: &'static [u32],
    inputs: MakesInputs,
    simpler: fn(&[u8]) -> Vec<Vec<u8>>,
}

pub const PROGRAMS: [Program; 4] = [
    Program {
        name: "parts",
        writes: cli::programs::parts,
        faults: &two_files::FAULTS,
        inputs: of_parts,
        simpler: simpler_file,
    },
    Program {
        name: "contours",
        writes: cli::programs::contours,
        faults: &[13, 1, 2, 3, 4, 5, 6, 11, 10, 20],
        inputs: of_contours,
        simpler: |bytes| simpler_files(bytes, 1),
    },
    Program {
        name: "placed",
        writes: judge::programs::placed,
        faults: &[13, 2, 1, 3, 4, 5, 6, 11, 10, 20],
        inputs: of_placed,
        simpler: |bytes| simpler_files(bytes, 2),
    },
    Program {
        name: "pairshard",
        writes: judge::programs::pairshard,
        faults: &[13, 7],
        inputs: of_pairshard,
        simpler: simpler_shard,
    },
];

/// A program as an entry point: `run` runs it.
pub struct Beside<'p, F> {
    pub program: &'p Program,
    pub run: F,
}

impl<F: Fn(&[u8]) -> Ran> EntryPoint for Beside<'_, F> {
    type Input = Vec<u8>;
    type Answer = Ran;

    fn name(&self) -> &'static str {
        self.program.name
    }

    fn faults(&self) -> &'static [u32] {
        self.program.faults
    }

    fn inputs<'a>(&self, rng: &'a mut Rng, count: u64) -> Inputs<'a, Vec<u8>> {
        (self.program.inputs)(rng, count)
    }

    fn rattle(&self, bytes: &Vec<u8>) -> Ran {
        (self.run)(bytes)
    }

    fn rust(&self, bytes: &Vec<u8>) -> Ran {
        Ran::well((self.program.writes)(bytes))
    }

    fn fault(&self, answer: &Ran) -> u32 {
        answer.fault()
    }

    fn simpler(&self, bytes: &Vec<u8>) -> Vec<Vec<u8>> {
        (self.program.simpler)(bytes)
    }

    fn show(&self, bytes: &Vec<u8>) -> String {
        shown(bytes)
    }
}

/// The driver itself, tried on functions of known worth in place of programs.
#[cfg(test)]
mod tests {
    use super::*;
    use crate::entry::{run, Report};
    use cli::answers::parts_of_file;
    use judge::listing::refusal;
    use std::collections::BTreeMap;

    const COUNT: u64 = 400;

    fn named(name: &str) -> &'static Program {
        let found = PROGRAMS.iter().find(|program| program.name == name);
        found.expect("a program's name")
    }

    fn report(name: &str, run_it: impl Fn(&[u8]) -> Ran) -> Report {
        let program = named(name);
        let beside = Beside {
            program,
            run: run_it,
        };
        run(&beside, 1, COUNT)
    }

    #[test]
    fn right_programs_pass_and_no_other_fault_occurs() {
        for program in &PROGRAMS {
            let report = report(program.name, |bytes| Ran::well((program.writes)(bytes)));
            assert!(report.passed(), "{report}");
            assert!(report.faults.values().all(|&times| times > 5), "{report}");
            assert_eq!(report.faults.len(), program.faults.len() + 1, "{report}");
        }
    }

    #[test]
    fn every_placement_occurs_often() {
        let mut rng = Rng::new(1);
        let mut tally: BTreeMap<Vec<u8>, usize> = BTreeMap::new();
        for bytes in of_placed(&mut rng, 1_000) {
            *tally.entry(judge::programs::placed(&bytes)).or_default() += 1;
        }
        for told in ["apart\n", "touching\n", "overlapping\n"] {
            assert!(tally[told.as_bytes()] > 100, "{told}: {tally:?}");
        }
    }

    /// The judge asks each two triangles; the same place by the contours of the
    /// differences of both meshes' split parts tells the same.
    #[test]
    fn places_by_triangles_are_places_by_contours() {
        let mut rng = Rng::new(2);
        let mut told = 0;
        for bytes in of_placed(&mut rng, COUNT).filter(|bytes| bytes.len() < SHORT) {
            let by_triangles = judge::programs::placed(&bytes);
            if by_triangles.starts_with(b"refused ") {
                continue;
            }
            let files = judge::two_files::decode(&bytes[8..]).expect("accepted");
            let [left, right] = files.map(|file| {
                let parts = parts_of_file(&file).expect("accepted");
                let table = Table::of(&parts);
                let bounds = judge::two_files::bounds(&file.mesh);
                Operand { table, bounds }
            });
            let contours = pair_contours(Operation::Difference, &left, &right).expect("accepted");
            let number = |k: usize| i32::from_le_bytes(bytes[k..k + 4].try_into().unwrap());
            let place = (number(0), number(4));
            let by_contours = match judge::placement::placement(&Table::of(&contours), place) {
                0 => "apart\n",
                1 => "touching\n",
                _ => "overlapping\n",
            };
            assert_eq!(by_triangles, by_contours.as_bytes(), "{}", shown(&bytes));
            told += 1;
        }
        assert!(told > 150, "{told}");
    }

    /// The smallest input by which the wrong program is seen.
    fn caught(name: &str, wrong: impl Fn(&[u8]) -> Ran) -> String {
        let report = report(name, wrong);
        assert!(report.differ > 0 && !report.passed());
        report.smallest.expect("a difference is shown")
    }

    fn right(name: &str, bytes: &[u8]) -> Ran {
        Ran::well((named(name).writes)(bytes))
    }

    #[test]
    fn another_status_and_a_newline_less_are_caught() {
        for program in &PROGRAMS {
            let small = caught(program.name, |bytes| {
                let mut ran = right(program.name, bytes);
                ran.status = Some(i32::from(ran.fault() > 0));
                ran
            });
            assert!(small.contains("Rattle status Some(1)"), "{small}");
            caught(program.name, |bytes| {
                let mut ran = right(program.name, bytes);
                ran.output.pop();
                ran
            });
        }
    }

    fn refused(fault: u32) -> Ran {
        Ran::well(refusal(fault).into_bytes())
    }

    /// What a total that is cut off tells of the right file.
    fn right_fault(files: &[u8]) -> u32 {
        let total = files
            .first_chunk::<4>()
            .map_or(0, |w| u32::from_le_bytes(*w));
        let right = files.get(total as usize..).unwrap_or_default();
        file::decode(right).err().unwrap_or(0)
    }

    #[test]
    fn the_rights_number_before_the_lefts_is_caught() {
        for (name, head) in [("contours", 4), ("placed", 8)] {
            caught(name, |bytes| {
                let ran = right(name, bytes);
                match right_fault(bytes.get(head..).unwrap_or_default()) {
                    13 if [2, 3, 4, 5, 6, 11].contains(&ran.fault()) => refused(13),
                    _ => ran,
                }
            });
        }
    }

    #[test]
    fn bytes_behind_the_right_file_accepted_are_caught() {
        for name in ["contours", "placed"] {
            let small = caught(name, |bytes| {
                if bytes.is_empty() {
                    return right(name, bytes);
                }
                let less = right(name, &bytes[..bytes.len().clamp(1, SHORT) - 1]);
                match less.fault() {
                    0 => less,
                    _ => right(name, bytes),
                }
            });
            assert!(small.contains("refused 13"), "{small}");
        }
    }

    #[test]
    fn each_mesh_cut_as_the_left_is_is_caught() {
        caught("contours", |bytes| {
            let Ok([left, mut right_file]) = judge::two_files::decode(&bytes[bytes.len().min(4)..])
            else {
                return right("contours", bytes);
            };
            (right_file.limit, right_file.split) = (left.limit, left.split);
            let files = [left, right_file].map(|file| file::encode(&file)).concat();
            right("contours", &[&bytes[..4], &files].concat())
        });
    }

    #[test]
    fn wrong_places_are_caught() {
        let small = caught("placed", |bytes| {
            let mut ran = right("placed", bytes);
            if ran.output == b"touching\n" {
                ran.output = b"apart\n".to_vec();
            }
            ran
        });
        assert!(small.contains("touching"), "{small}");
        // the left one moved, in place of the right one
        caught("placed", |bytes| match right("placed", bytes).fault() {
            0 => {
                let number = |k: usize| i32::from_le_bytes(bytes[k..k + 4].try_into().unwrap());
                right("placed", &at_place((-number(0), -number(4)), &bytes[8..]))
            }
            _ => right("placed", bytes),
        });
        // the place asked for after the files
        caught("placed", |bytes| {
            let files = bytes.get(8..).unwrap_or_default();
            match judge::two_files::decode(files) {
                Err(fault) if bytes.len() >= 8 => refused(fault),
                _ => right("placed", bytes),
            }
        });
    }

    #[test]
    fn wrong_shards_are_caught() {
        // starts that begin where they did
        caught("pairshard", |bytes| {
            let mut ran = right("pairshard", bytes);
            let from = bytes.first().copied().unwrap_or(0);
            if ran.fault() == 0 && from > 0 && ran.output[20] > 0 {
                ran.output[28] += 1;
            }
            ran
        });
        // a table past a limit, and right starts that are judged
        let job = |bytes: &[u8]| job::decode(bytes.get(8..).unwrap_or_default());
        caught("pairshard", |bytes| match job(bytes) {
            Ok(job) if judge::table::breaks_rules(&job.left.table) => refused(7),
            _ => right("pairshard", bytes),
        });
        caught("pairshard", |bytes| match job(bytes) {
            Ok(job) if judge::table::breaks_starts(&job.right.table) => refused(7),
            _ => right("pairshard", bytes),
        });
        caught("pairshard", |bytes| match job(bytes) {
            Ok(job) if right("pairshard", bytes).fault() == 7 => Ran::well(job::encode(&job)),
            _ => right("pairshard", bytes),
        });
    }

    #[test]
    fn children_are_run_and_what_they_write_and_how_they_end_is_told() {
        let long: Vec<u8> = (0..1_000_000).map(|k| (k % 251) as u8).collect();
        let ran = |program: &str, bytes: &[u8]| child(Path::new(program), bytes);
        assert_eq!(ran("cat", &long), Ran::well(long.clone()));
        assert_eq!(ran("true", &long), Ran::well(vec![]));
        assert_eq!(ran("false", &[]).status, Some(1));
    }
}
