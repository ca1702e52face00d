//! The entry point that splits past a limit: a mesh's parts with at most so many
//! corners each, written to lent starts and corners. Refusals are the judge's, parts
//! the Rust's.

use crate::entry::EntryPoint;
use crate::lent::{Handed, Kept, Lent};
use crate::mesh::{any, fixed, rows, simpler, Row, SHARE};
use crate::told::Counts;
use crate::written::Written;
use cli::answers::{parts, Cut};
use inputs::mesh_damage::damaged;
use inputs::meshes::{self, Mesh};
use inputs::rng::Rng;
use inputs::{contours, rooms, text};
use judge::file::Split;
use judge::room::{Room, Size};
use judge::{Contour, Fault};

/// It is given the Rattle function that it asks.
pub fn with_max_vertices_beside<F>(rattle: F) -> WithMaxVertices<F>
where
    F: Fn(Handed<Row>, u32, u32, Handed<u32>, Handed<i32>) -> Counts,
{
    WithMaxVertices {
        rattle,
        small: || Box::new(fixed()),
    }
}

/// A mesh, the limit and the split by its number.
#[derive(Debug, Clone)]
pub struct Asked {
    pub mesh: Mesh,
    pub limit: u32,
    pub split: u32,
}

/// And the room that is lent for the parts.
#[derive(Debug, Clone)]
pub struct Call {
    pub asked: Asked,
    pub lent: Room,
}

impl Asked {
    /// 13 is document 01's for a split that is none of the three, before the mesh's
    /// own faults.
    pub fn parts(&self) -> Result<Vec<Contour>, Fault> {
        let split = Split::numbered(self.split).ok_or(13u32)?;
        parts(&self.mesh, Cut::Past(self.limit, split))
    }

    /// The size of the parts; none where it is refused.
    pub fn size(&self) -> Size {
        Size::of(&self.parts().unwrap_or_default())
    }

    /// With every room about the answer's size, or with room for any where it is
    /// refused.
    fn in_every_room(self) -> Vec<Call> {
        let lents = match self.parts() {
            Ok(parts) => rooms::every(Size::of(&parts)),
            Err(_) => vec![Room {
                starts: 2 * self.mesh.len() + 1,
                numbers: 12 * self.mesh.len(),
            }],
        };
        let call = |lent| Call {
            asked: self.clone(),
            lent,
        };
        lents.into_iter().map(call).collect()
    }

    /// With just enough room.
    pub fn in_exact_room(self) -> Call {
        let size = self.size();
        Call {
            lent: Room {
                starts: size.starts(),
                numbers: size.numbers(),
            },
            asked: self,
        }
    }
}

/// What document 01 and the Rust say of a call.
pub fn written(call: &Call) -> Written {
    Written::after(call.lent, call.asked.parts())
}

// ---- inputs

/// The limits that small meshes are split past, and the splits.
const LIMITS: std::ops::RangeInclusive<u32> = 0..=8;
const SPLITS: std::ops::Range<u32> = 0..3;
/// Numbers of no split.
const NONE_OF_THEM: [u32; 3] = [3, 256, u32::MAX];

/// Each limit with each split.
fn cuts(limits: std::ops::RangeInclusive<u32>) -> impl Iterator<Item = (u32, u32)> {
    limits.flat_map(|limit| SPLITS.map(move |split| (limit, split)))
}

/// These meshes, and every contour that is worth it, at every limit and split and in
/// every room; some with no split; every small convex contour from each corner in
/// exact room.
fn fixed_calls(small: impl Iterator<Item = Mesh>) -> impl Iterator<Item = Call> {
    let asked = |mesh: &Mesh, (limit, split): (u32, u32)| Asked {
        mesh: mesh.clone(),
        limit,
        split,
    };
    let worth = contours::worth_splitting().into_iter();
    let every = small.chain(worth.map(|contour| meshes::region(&contour)));
    let every = every
        .flat_map(move |mesh| cuts(LIMITS).flat_map(move |cut| asked(&mesh, cut).in_every_room()));
    let no_split = [Mesh::new(), meshes::apart(2), meshes::apart(1025)];
    let no_split = no_split.into_iter().flat_map(move |mesh| {
        NONE_OF_THEM.map(|split| Call {
            asked: asked(&mesh, (3, split)),
            lent: Room {
                starts: 3,
                numbers: 12,
            },
        })
    });
    let convex = contours::small_convex(4).into_iter();
    let convex = convex.flat_map(|contour| contours::turned(&contour).collect::<Vec<_>>());
    let convex = convex.flat_map(move |contour| {
        let mesh = meshes::region(&contour);
        let most = contour.len() as u32 - 1;
        cuts(3..=most).map(move |cut| asked(&mesh, cut).in_exact_room())
    });
    every.chain(no_split).chain(convex)
}

/// A mesh that is good or not, any limit but mostly a small one, and a split that is
/// mostly one.
fn any_call(rng: &mut Rng) -> Call {
    let (good, faults) = any(rng);
    let limit = match rng.below(20) {
        0 => u32::MAX,
        1 => rng.below(1_030) as u32,
        2 | 3 => rng.below(40) as u32,
        _ => rng.below(9) as u32,
    };
    let split = match rng.below(100) {
        0 => rng.pick(&NONE_OF_THEM),
        _ => rng.below(3) as u32,
    };
    let mut asked = Asked {
        mesh: good,
        limit,
        split,
    };
    let lent = rooms::about(rng, asked.size());
    asked.mesh = damaged(rng, &asked.mesh, &faults);
    Call { asked, lent }
}

// ---- the entry point

pub struct WithMaxVertices<F> {
    rattle: F,
    /// The small meshes that it is asked.
    small: fn() -> Box<dyn Iterator<Item = Mesh>>,
}

impl<F> EntryPoint for WithMaxVertices<F>
where
    F: Fn(Handed<Row>, u32, u32, Handed<u32>, Handed<i32>) -> Counts,
{
    type Input = Call;
    type Answer = Kept<Written>;

    fn name(&self) -> &'static str {
        "to_convex_polygons_with_max_vertices"
    }

    fn faults(&self) -> &'static [u32] {
        &[13, 1, 2, 3, 4, 5, 6, 11, 22, 21]
    }

    fn inputs<'a>(&self, rng: &'a mut Rng, count: u64) -> Box<dyn Iterator<Item = Call> + 'a> {
        let random = (0..count / SHARE).map(move |_| any_call(rng));
        Box::new(fixed_calls((self.small)()).chain(random))
    }

    fn rattle(&self, call: &Call) -> Kept<Written> {
        let Asked { mesh, limit, split } = &call.asked;
        let rows = rows(mesh);
        let mut lent = Lent::list(&rows);
        let mut told = Written::before(call.lent);
        let (starts, corners) = (told.starts.handed(), told.corners.handed());
        told.counts = (self.rattle)(lent.handed(), *limit, *split, starts, corners);
        let kept = lent.holds(&rows);
        Kept { told, kept }
    }

    fn rust(&self, call: &Call) -> Kept<Written> {
        Kept::all(written(call))
    }

    fn fault(&self, answer: &Kept<Written>) -> u32 {
        answer.told.counts.fault
    }

    fn simpler(&self, call: &Call) -> Vec<Call> {
        let with = |mesh: Mesh, limit: u32, lent: Room| Call {
            asked: Asked {
                mesh,
                limit,
                split: call.asked.split,
            },
            lent,
        };
        let Asked { mesh, limit, .. } = &call.asked;
        let meshes = simpler(mesh).into_iter();
        let mut out: Vec<Call> = meshes.map(|m| with(m, *limit, call.lent)).collect();
        let limits = [*limit / 2, limit.saturating_sub(1)].into_iter();
        let limits = limits.filter(|lower| lower < limit);
        out.extend(limits.map(|lower| with(mesh.clone(), lower, call.lent)));
        let lents = rooms::less(call.lent).into_iter();
        out.extend(lents.map(|lent| with(mesh.clone(), *limit, lent)));
        out
    }

    fn show(&self, call: &Call) -> String {
        let Room { starts, numbers } = call.lent;
        let Asked { mesh, limit, split } = &call.asked;
        let mesh = text::mesh(mesh);
        format!("{mesh} limit {limit} split {split} room {starts} {numbers}")
    }
}

/// The driver itself, tried on functions of known worth, and the inputs on what they
/// should have.
#[cfg(test)]
mod tests {
    use super::*;
    use crate::entry::{run, Report};
    use crate::lent::overruns::{self, plant, seen};
    use judge::mesh::Triangle;
    use judge::Point;

    const COUNT: u64 = 10_000;

    type WritesSplit = fn(&[Row], u32, u32, &mut [u32], &mut [i32]) -> Counts;

    /// A function on slices as the entry point asks it. Safe: the memory is lent.
    fn asked(f: WritesSplit) -> impl Fn(Handed<Row>, u32, u32, Handed<u32>, Handed<i32>) -> Counts {
        move |rows, limit, split, starts, corners| unsafe {
            f(rows.slice(), limit, split, starts.slice(), corners.slice())
        }
    }

    /// With one small mesh in so many, to be quick.
    fn beside(rattle: WritesSplit) -> impl EntryPoint {
        WithMaxVertices {
            rattle: asked(rattle),
            small: || Box::new(fixed().step_by(37)),
        }
    }

    fn mesh_of(rows: &[Row]) -> Mesh {
        rows.iter()
            .map(|r| Triangle {
                points: [(r[0], r[1]), (r[2], r[3]), (r[4], r[5])],
                neighbours: [r[6], r[7], r[8]].map(|n| n as u32),
            })
            .collect()
    }

    /// What the Rust and the judge leave in the lent memory.
    fn right(
        rows: &[Row],
        limit: u32,
        split: u32,
        starts: &mut [u32],
        corners: &mut [i32],
    ) -> Counts {
        let lent = Room {
            starts: starts.len(),
            numbers: corners.len(),
        };
        let mesh = mesh_of(rows);
        let asked = Asked { mesh, limit, split };
        written(&Call { asked, lent }).copied(starts, corners)
    }

    #[test]
    fn a_right_function_passes() {
        let report = run(&beside(right), 1, COUNT);
        assert!(report.passed(), "{report}");
        assert!(report.faults.values().all(|&times| times > 20), "{report}");
    }

    #[test]
    fn overruns_are_caught() {
        for at in overruns::ALL {
            let entry = with_max_vertices_beside(move |rows, limit, split, starts, corners| {
                let told = asked(right)(rows, limit, split, starts, corners);
                plant(rows, at);
                told
            });
            seen(&entry, at);
        }
        for at in overruns::ENDS {
            let entry = with_max_vertices_beside(move |rows, limit, split, starts, corners| {
                let told = asked(right)(rows, limit, split, starts, corners);
                plant(starts, at);
                told
            });
            seen(&entry, at);
            let entry = with_max_vertices_beside(move |rows, limit, split, starts, corners| {
                let told = asked(right)(rows, limit, split, starts, corners);
                plant(corners, at);
                told
            });
            seen(&entry, at);
        }
    }

    /// Of each accepted split of a contour: its corners, the limit and split, and the
    /// parts.
    fn answers() -> Vec<(Contour, Asked, Vec<Contour>)> {
        let calls = fixed_calls(std::iter::empty()).filter(|call| call.asked.mesh.len() < 1_000);
        let one = calls.filter_map(|call| {
            let whole = parts(&call.asked.mesh, Cut::None).ok()?;
            let [contour] = &whole[..] else { return None };
            let cut = call.asked.parts().ok()?;
            (cut.len() > 1).then(|| (contour.clone(), call.asked.clone(), cut))
        });
        one.collect()
    }

    #[test]
    fn the_fixed_calls_meet_every_turn_of_the_centroid_split() {
        let all = answers();
        let centred = |(c, asked, cut): &&(Contour, Asked, Vec<Contour>)| {
            asked.split == 2 && cut.iter().all(|part| !c.contains(&part[0]))
        };
        let fallen = |(_, asked, cut): &&(Contour, Asked, Vec<Contour>)| {
            let fan = Asked {
                split: 1,
                ..asked.clone()
            };
            asked.split == 2 && fan.parts().as_ref() == Ok(cut)
        };
        // a group that ends early makes more parts than there are groups
        let early = |(c, asked, cut): &&(Contour, Asked, Vec<Contour>)| {
            cut.len() > c.len().div_ceil(asked.limit.max(3) as usize - 2)
        };
        assert!(all.iter().filter(centred).filter(early).count() > 100);
        // halves of either sign, in x and in y: the centre is twice as near as an odd
        // number of halves says
        for sign in [(1, 1), (-1, 1), (-1, -1), (1, -1)] {
            let square: Contour = [(0, 0), (3, 0), (3, 3), (0, 3)].into();
            let from = |c: &Contour| (2 * c[0].0 - 3, 2 * c[0].1 - 3);
            let half = |(c, _, cut): &&(Contour, Asked, Vec<Contour>)| {
                let (x, y) = from(c);
                square.iter().all(|p| c.contains(p))
                    && c.len() == 4
                    && (-x.signum(), -y.signum()) == sign
                    && cut[0][0] == (1 + (sign.0 + 1) / 2, 1 + (sign.1 + 1) / 2)
            };
            assert!(all.iter().filter(centred).any(|one| half(&one)), "{sign:?}");
        }
        // a centre on an edge; the most that the centroid split takes, one less, one more
        assert!(all.iter().filter(fallen).count() > 100);
        let area = |c: &Contour| judge::listing::area_two(c);
        let with_area = |a: i128| move |one: &&(Contour, Asked, Vec<Contour>)| area(&one.0) == a;
        for (a, served) in [
            (3_074_457_345_618_258_601, true),
            (3_074_457_345_618_258_602, true),
            (3_074_457_345_618_258_603, false),
        ] {
            let served_ones = all.iter().filter(centred).filter(with_area(a));
            assert_eq!(served_ones.count() > 0, served);
            assert_eq!(
                all.iter().filter(fallen).any(|one| with_area(a)(&one)),
                !served
            );
        }
    }

    fn caught(wrong: WritesSplit) -> String {
        let report: Report = run(&beside(wrong), 1, COUNT);
        assert!(report.differ > 0 && !report.passed());
        report.smallest.expect("a difference is shown")
    }

    #[test]
    fn a_limit_that_is_not_raised_is_caught() {
        let small = caught(|rows, limit, split, starts, corners| match limit {
            2 => right(rows, 4, split, starts, corners),
            _ => right(rows, limit, split, starts, corners),
        });
        assert!(small.contains("limit 2 split 0 room 2 0"), "{small}");
    }

    #[test]
    fn ear_in_place_of_fan_is_caught() {
        let small = caught(|rows, limit, split, starts, corners| match split {
            1 => right(rows, limit, 0, starts, corners),
            _ => right(rows, limit, split, starts, corners),
        });
        assert!(small.contains("limit 0 split 1 room 3 12"), "{small}");
    }

    /// The centre is rounded down where it is a half: the first corner of each part.
    fn rounded_down(
        rows: &[Row],
        limit: u32,
        split: u32,
        starts: &mut [u32],
        corners: &mut [i32],
    ) -> Counts {
        let counts = right(rows, limit, split, starts, corners);
        let whole = parts(&mesh_of(rows), Cut::None).unwrap_or_default();
        let square: Vec<Point> = vec![(0, 3), (0, 0), (3, 0), (3, 3)];
        if counts.fault == 0 && whole == [square] && split == 2 {
            corners[0] = 1;
        }
        counts
    }

    #[test]
    fn a_half_rounded_the_other_way_is_caught() {
        let small = caught(rounded_down);
        assert!(
            small.contains("(3,3)") && small.contains("split 2"),
            "{small}"
        );
    }

    #[test]
    fn a_split_that_is_none_accepted_is_caught() {
        let small = caught(|rows, limit, split, starts, corners| {
            right(rows, limit, split.min(2), starts, corners)
        });
        assert!(small.starts_with("[] limit 0 split "), "{small}");
    }
}
