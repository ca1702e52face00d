//! The topic of crate `table`: rules, limits, range and bounds of a part table,
//! its parts and back, the stored form and the part shown, beside the judge.

use crate::antt::{self, bounds, bytes, contours, integers};
use crate::topic::{layers, Amount, Case, Topic};
use inputs::coordinates::EDGE;
use inputs::operands::{self, Pair};
use inputs::pair_damage::{break_rules, damaged};
use inputs::rng::Rng;
use inputs::rooms;
use inputs::stored::table_bytes;
use inputs::tables::limits;
use inputs::text;
use judge::pairs::{breaks_bounds, Operand};
use judge::room::{Room, Size};
use judge::shown::{self, Side};
use judge::stored;
use judge::table::{breaks_rules, fault, leaves_range, Table};
use judge::Contour;

/// The definitions' names, here and in `DECLARATIONS`.
const USES: &str = "\
use Rattle.table.specs.declared.IntRect.{IntRect}
use Rattle.corners.specs.Corners.{points_of, off_range}
use Rattle.table.specs.Table.{table_broken, bounds_broken, table_parts, starts_of, corners_of}
use Rattle.table.specs.Stored.{stored_of, read_fault, write_fault, stored_starts, stored_corners}
use Rattle.table.specs.Shown.{shown_fault, shown_part}
";

const DECLARATIONS: &str = "
abbrev box : ℤ → ℤ → ℤ → ℤ → IntRect
box a b c d = record { min_x = a; max_x = b; min_y = c; max_y = d }

data Case : Type 0 where
  breaks : List ℕ → List ℤ → Bool → Bool → Case
  leaves_bounds : IntRect → List ℤ → Bool → Case
  parted : List ℕ → List ℤ → List (List Pt) → Case
  tabled : List (List Pt) → List ℕ → List ℤ → Case
  stores : List ℕ → List ℤ → List ℕ → Case
  writes : List ℕ → List ℤ → ℕ → ℕ → Case
  reads : List ℕ → ℕ → ℕ → ℕ → Case
  reads_back : List ℕ → List ℕ → List ℤ → Case
  shows : List ℕ → List ℤ → List ℕ → List ℤ → Bool → ℕ → ℕ → List ℤ → Case

abbrev holds : Case → Bool
holds (breaks s c rules range) = both (eq_bool (table_broken s c) rules) (eq_bool (off_range c) range)
holds (leaves_bounds b c outside) = eq_bool (bounds_broken b (points_of c)) outside
holds (parted s c ps) = eq_contours (table_parts s c) ps
holds (tabled ps s c) = both (eq_nats (starts_of ps) s) (eq_ints (corners_of ps) c)
holds (stores s c b) = eq_nats (stored_of s c) b
holds (writes s c room f) = eqb (write_fault s c room) f
holds (reads b starts corners f) = eqb (read_fault b starts corners) f
holds (reads_back b s c) = both (eq_nats (stored_starts b) s) (eq_ints (stored_corners b) c)
holds (shows ls lc rs rc right k f c) = both (eqb (shown_fault ls lc rs rc right k) f) (eq_ints (shown_part ls lc rs rc right k) c)
";

/// Tables at each limit and past it; then random ones, good and damaged, each way
/// they are used.
pub fn topic(rng: &mut Rng, amount: Amount) -> Topic {
    let count = amount.random;
    let mut cases: Vec<Case> = limits().iter().map(breaks).collect();
    cases.extend(about_the_rules());
    for _ in 0..count / 4 {
        let good = good(rng);
        let table = perhaps_broken(rng);
        cases.extend([breaks(&table), parted(&good), tabled(&good)]);
        cases.extend([stores(&good), writes(rng, &table), leaves_bounds(rng)]);
        let given = table_bytes(rng);
        if given.len() < LONG {
            cases.push(reads(rng, &given));
            cases.extend(reads_back(&given));
        }
        let other = perhaps_broken(rng);
        cases.push(shows(rng, &table, &other));
        let other = Table::of(&parts(rng));
        cases.push(shows(rng, &good, &other));
    }
    Topic {
        name: "Table",
        modules: layers::table(),
        uses: format!("{}{USES}", antt::FIGURES),
        declarations: DECLARATIONS.into(),
        cases,
    }
}

/// Bytes past which a random stored table is left out.
const LONG: usize = 1_000;

/// Coordinates and bounds one below their limit, at it and one beyond; a stored table with
/// a byte less or more, and with room one place short, exact and longer; the last part and
/// one past it.
fn about_the_rules() -> Vec<Case> {
    let mut cases = Vec::new();
    let table = Table::of(&[vec![(0, 0), (4, 0), (0, 3)], vec![], vec![(-2, 5)]]);
    for z in [EDGE - 1, EDGE, EDGE + 1, 1 - EDGE, -EDGE, -EDGE - 1] {
        for at in [0, 7] {
            let mut far = table.clone();
            far.corners[at] = z;
            cases.extend([breaks(&far), written(&far, 100)]);
        }
    }
    let just = [-2, 4, 0, 5];
    cases.push(bounded(just, &table));
    for at in 0..4 {
        for by in [-1, 1] {
            let mut bounds = just;
            bounds[at] += by;
            cases.push(bounded(bounds, &table));
        }
    }
    for (least, greatest) in [(1, 1), (1, 0), (0, 1)] {
        let empty = Table::of(&[]);
        cases.push(bounded([least, greatest, 0, 0], &empty));
        cases.push(bounded([0, 0, least, greatest], &empty));
    }
    let stored = stored::encode(&table);
    for room in [stored.len() - 1, stored.len(), stored.len() + 1] {
        cases.push(written(&table, room));
    }
    let size = Size {
        parts: table.parts(),
        corners: table.corner_count(),
    };
    for lent in rooms::every(size) {
        cases.push(read(&stored, lent));
    }
    let ample = Room {
        starts: 9,
        numbers: 99,
    };
    let longer = [&stored[..], &[0]].concat();
    for given in [
        &stored[..stored.len() - 1],
        &longer,
        &stored[..7],
        &stored[..8],
    ] {
        cases.push(read(given, ample));
    }
    for part in [0, 2, 3, 4] {
        for side in [Side::Left, Side::Right] {
            cases.push(shown_part(&table, &table, side, part));
        }
    }
    cases
}

fn parts(rng: &mut Rng) -> Vec<Contour> {
    operands::parts(rng, 5, 6, 100)
}

fn good(rng: &mut Rng) -> Table {
    Table::of(&parts(rng))
}

/// A table that keeps the rules or does not; small in any case.
fn perhaps_broken(rng: &mut Rng) -> Table {
    loop {
        let mut table = good(rng);
        if rng.once_in(2) {
            break_rules(rng, &mut table);
        }
        if !table.corners.is_empty() && rng.once_in(4) {
            let at = rng.below(table.corners.len());
            table.corners[at] = inputs::coordinates::beyond(rng);
        }
        if table.starts.len() + table.corners.len() < 200 {
            return table;
        }
    }
}

fn breaks(table: &Table) -> Case {
    let (rules, range) = (breaks_rules(table), leaves_range(table));
    Case::new(
        format!("breaks {} {rules} {range}", antt::table(table)),
        format!(
            "table_broken {} is {rules}, off_range {range}",
            text::table(table)
        ),
    )
}

/// An operand in its bounds, with a bound moved, or damaged.
fn leaves_bounds(rng: &mut Rng) -> Case {
    let Pair { mut left, .. } = loop {
        let pair = operands::good(rng, 3, 5);
        let hurt = match rng.below(3) {
            0 => damaged(rng, &pair, &[9]),
            _ => pair,
        };
        if !hurt.left.table.starts.is_empty() {
            break hurt;
        }
    };
    if rng.once_in(3) {
        left.bounds[rng.below(4)] += rng.between(-1, 1);
    }
    bounded(left.bounds, &left.table)
}

fn bounded(b: [i32; 4], table: &Table) -> Case {
    let outside = breaks_bounds(&Operand {
        table: table.clone(),
        bounds: b,
    });
    Case::new(
        format!(
            "leaves_bounds {} {} {outside}",
            bounds(b.map(i128::from)),
            integers(&table.corners)
        ),
        format!(
            "bounds_broken {b:?} {} is {outside}",
            text::numbers(&table.corners)
        ),
    )
}

fn parted(table: &Table) -> Case {
    let parts = table.contours();
    Case::new(
        format!("parted {} {}", antt::table(table), contours(&parts)),
        format!(
            "table_parts {} is {}",
            text::table(table),
            text::contours(&parts)
        ),
    )
}

fn tabled(table: &Table) -> Case {
    let parts = table.contours();
    Case::new(
        format!("tabled {} {}", contours(&parts), antt::table(table)),
        format!(
            "starts_of {} is {}",
            text::contours(&parts),
            text::table(table)
        ),
    )
}

fn stores(table: &Table) -> Case {
    let stored = stored::encode(table);
    Case::new(
        format!("stores {} {}", antt::table(table), bytes(&stored)),
        format!(
            "stored_of {} is {}",
            text::table(table),
            text::numbers(&stored)
        ),
    )
}

fn writes(rng: &mut Rng, table: &Table) -> Case {
    let needed = match fault(table) {
        0 => stored::encode(table).len(),
        _ => 50,
    };
    let room = rng.pick(&[0, needed.saturating_sub(1), needed, needed, needed + 1]);
    written(table, room)
}

fn written(table: &Table, room: usize) -> Case {
    let fault = stored::write_fault(table, room);
    Case::new(
        format!("writes {} {room} {fault}", antt::table(table)),
        format!("write_fault {} room {room} is {fault}", text::table(table)),
    )
}

fn reads(rng: &mut Rng, given: &[u8]) -> Case {
    let size = match stored::decode(given) {
        Ok(table) => Size {
            parts: table.parts(),
            corners: table.corner_count(),
        },
        Err(_) => Size {
            parts: 3,
            corners: 9,
        },
    };
    let mut about = |exact: usize| rng.pick(&[0, exact.saturating_sub(1), exact, exact, exact + 9]);
    let lent = Room {
        starts: about(size.starts()),
        numbers: about(size.numbers()),
    };
    read(given, lent)
}

fn read(given: &[u8], lent: Room) -> Case {
    let fault = stored::read_fault(given, lent);
    let Room { starts, numbers } = lent;
    Case::new(
        format!("reads {} {starts} {numbers} {fault}", bytes(given)),
        format!(
            "read_fault {} room {starts} {numbers} is {fault}",
            text::numbers(given)
        ),
    )
}

fn reads_back(given: &[u8]) -> Option<Case> {
    let table = stored::decode(given).ok()?;
    Some(Case::new(
        format!("reads_back {} {}", bytes(given), antt::table(&table)),
        format!(
            "stored_starts {} is {}",
            text::numbers(given),
            text::table(&table)
        ),
    ))
}

fn shows(rng: &mut Rng, left: &Table, right: &Table) -> Case {
    let side = rng.pick(&[Side::Left, Side::Right]);
    let asked = match side {
        Side::Left => left,
        Side::Right => right,
    };
    let part = rng.below(asked.starts.len() + 2) as u32;
    shown_part(left, right, side, part)
}

fn shown_part(left: &Table, right: &Table, side: Side, part: u32) -> Case {
    let fault = shown::fault(left, right, side, part);
    let corners: Vec<i32> = match fault {
        0 => shown::corners(left, right, side, part)
            .iter()
            .flat_map(|&(x, y)| [x, y])
            .collect(),
        _ => Vec::new(),
    };
    Case::new(
        format!(
            "shows {} {} {} {part} {fault} {}",
            antt::table(left),
            antt::table(right),
            side == Side::Right,
            integers(&corners)
        ),
        format!(
            "shown_part {}; {} {side:?} {part} is {fault} {}",
            text::table(left),
            text::table(right),
            text::numbers(&corners)
        ),
    )
}
