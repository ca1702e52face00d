//! The entry point `import_path`: a path in millimetres and a frame, to corners on the front of
//! lent numbers, beside the judge, which counts in whole numbers. The given Rust has no paths.

use crate::entry::EntryPoint;
use crate::lent::{Handed, Kept, Lent};
use crate::mesh;
use crate::table_simpler::{lesser, simpler_list};
use inputs::paths::{self, Import};
use inputs::rng::Rng;
use inputs::text;
use judge::path::{imported, Frame, Item, CLOSE, HORIZONTAL, LINE, MOVE};

/// How many corners were written; 0 where refused.
#[repr(C)]
#[derive(Debug, Clone, Copy, PartialEq, Eq)]
pub struct ToldCorners {
    pub fault: u32,
    pub corners: u32,
}

/// A frame as it is handed over, its numbers as numbers.
#[repr(C)]
#[derive(Debug, Clone, Copy)]
pub struct HandedFrame {
    pub x: f64,
    pub y: f64,
    pub steps: f64,
}

impl From<Frame> for HandedFrame {
    fn from(frame: Frame) -> Self {
        let [x, y, steps] = [frame.x, frame.y, frame.steps].map(f64::from_bits);
        Self { x, y, steps }
    }
}

/// What the call told, and the lent numbers after it.
#[derive(Debug, PartialEq)]
pub struct PathAnswer {
    pub told: ToldCorners,
    pub corners: Lent<i32>,
}

/// What the judge says, and its corners on the front of lent numbers, as many as the input says.
pub fn import_into(input: &Import, numbers: &mut [i32]) -> ToldCorners {
    match imported(&input.path, &input.frame, input.lent) {
        Err(fault) => ToldCorners { fault, corners: 0 },
        Ok(corners) => {
            for (place, corner) in numbers.chunks_exact_mut(2).zip(&corners) {
                place.copy_from_slice(&[corner.0, corner.1]);
            }
            ToldCorners {
                fault: 0,
                corners: corners.len() as u32,
            }
        }
    }
}

pub struct ImportPath<F> {
    rattle: F,
}

/// It is given the Rattle function that it asks.
pub fn import_path_beside<F>(rattle: F) -> ImportPath<F>
where
    F: Fn(Handed<Item>, HandedFrame, Handed<i32>) -> ToldCorners,
{
    ImportPath { rattle }
}

/// Bits with fewer ones: of zero, of the whole part, without the sign, without the lower half of
/// the fraction's ones, without the last of them.
fn simpler_bits(bits: u64) -> Vec<u64> {
    let value = f64::from_bits(bits);
    let fraction = bits & ((1 << 52) - 1);
    let mut half = fraction;
    for _ in 0..fraction.count_ones().div_ceil(2) {
        half &= half.wrapping_sub(1);
    }
    let last = fraction & fraction.wrapping_sub(1);
    let rest = bits - fraction;
    let whole = if value.is_finite() {
        value.trunc().to_bits()
    } else {
        0
    };
    let mut out = vec![0, whole, bits & !(1 << 63), rest + half, rest + last];
    out.retain(|simpler| simpler.count_ones() < bits.count_ones());
    out
}

/// Kinds that have another put in their place: a line for every other that draws one, the least
/// for those that there are not.
fn simpler_item(item: Item) -> Vec<Item> {
    let kind = match item.kind {
        MOVE | LINE | CLOSE => None,
        HORIZONTAL..CLOSE => Some(LINE),
        6 => None,
        _ => Some(6),
    };
    let kinds = kind.into_iter().map(|kind| Item { kind, ..item });
    let xs = simpler_bits(item.x).into_iter().map(|x| Item { x, ..item });
    let ys = simpler_bits(item.y).into_iter().map(|y| Item { y, ..item });
    kinds.chain(xs).chain(ys).collect()
}

fn simpler_frames(frame: Frame) -> Vec<Frame> {
    let Frame { x, y, steps } = frame;
    let one = 1f64.to_bits();
    let xs = simpler_bits(x).into_iter().map(|x| Frame { x, ..frame });
    let ys = simpler_bits(y).into_iter().map(|y| Frame { y, ..frame });
    let steps = (steps != one).then_some(Frame {
        steps: one,
        ..frame
    });
    steps.into_iter().chain(xs).chain(ys).collect()
}

impl<F> EntryPoint for ImportPath<F>
where
    F: Fn(Handed<Item>, HandedFrame, Handed<i32>) -> ToldCorners,
{
    type Input = Import;
    type Answer = Kept<PathAnswer>;

    fn name(&self) -> &'static str {
        "import_path"
    }

    fn faults(&self) -> &'static [u32] {
        &[14, 7, 2, 21]
    }

    fn inputs<'a>(&self, rng: &'a mut Rng, count: u64) -> Box<dyn Iterator<Item = Import> + 'a> {
        paths::asked(rng, count / mesh::SHARE)
    }

    fn rattle(&self, input: &Import) -> Kept<PathAnswer> {
        let mut path = Lent::list(&input.path);
        let mut corners = Lent::places(input.lent);
        let told = (self.rattle)(path.handed(), input.frame.into(), corners.handed());
        Kept {
            told: PathAnswer { told, corners },
            kept: path.holds(&input.path),
        }
    }

    fn rust(&self, input: &Import) -> Kept<PathAnswer> {
        let mut corners = Lent::places(input.lent);
        let told = import_into(input, corners.slice_mut());
        Kept::all(PathAnswer { told, corners })
    }

    fn fault(&self, answer: &Kept<PathAnswer>) -> u32 {
        answer.told.told.fault
    }

    fn simpler(&self, input: &Import) -> Vec<Import> {
        let with = |change: &dyn Fn(&mut Import)| {
            let mut changed = input.clone();
            change(&mut changed);
            changed
        };
        let mut out = Vec::new();
        for path in simpler_list(&input.path, simpler_item) {
            out.push(with(&|q| q.path = path.clone()));
        }
        for frame in simpler_frames(input.frame) {
            out.push(with(&|q| q.frame = frame));
        }
        for lent in lesser(input.lent) {
            out.push(with(&|q| q.lent = lent));
        }
        out
    }

    fn show(&self, Import { path, frame, lent }: &Import) -> String {
        format!("{} numbers lent {lent}", text::path(path, frame))
    }
}

/// The driver itself, tried on functions of known worth.
#[cfg(test)]
mod tests {
    use super::*;
    use crate::entry::run;
    use crate::lent::overruns::{self, plant, seen};
    use judge::path::{RELATIVE_LINE, VERTICAL};

    const COUNT: u64 = 20_000;

    /// What a function in f64 may do wrong.
    #[derive(Debug, Clone, Copy, PartialEq, Eq)]
    enum Slip {
        None,
        /// The whole number: halves up, to even, a half added before the rest is cut off, and
        /// the rest cut off alone.
        HalfUp,
        HalfEven,
        HalfAdded,
        Cut,
        /// The difference in more places than f64 has; point and origin each made whole before.
        LongDifference,
        OriginLast,
        /// The end of the range left out; a relative line's own millimetres judged by the range,
        /// or a point less the origin.
        EndLeftOut,
        RelativeJudged,
        DifferenceJudged,
        /// A horizontal or vertical that reads both its numbers; that forgets the other.
        BothRead,
        OtherForgotten,
        /// A relative line from the first point; its sum judged before it is rounded, and with
        /// what the sums before it lost.
        FromFirst,
        SumJudged,
        SumMadeUp,
        /// Of the kind the lower 32 bits; for the step count any whole number, or 2,048; for the
        /// origin anything.
        KindCut,
        AnySteps,
        MoreSteps,
        OriginNotJudged,
        /// 7 or 2 before 14; 21 before 2; one corner more or fewer; the close a corner.
        LongFirst,
        GridFirst,
        RoomFirst,
        OneMore,
        OneFewer,
        CloseCorner,
        /// Room counted in corners; one number too few taken.
        RoomByCorners,
        RoomOneShort,
        /// A refusal that tells the corners, or has written some; an answer that writes on.
        CountTold,
        WrittenBefore,
        WrittenPast,
    }

    const SLIPS: [Slip; 29] = [
        Slip::HalfUp,
        Slip::HalfEven,
        Slip::HalfAdded,
        Slip::Cut,
        Slip::LongDifference,
        Slip::OriginLast,
        Slip::EndLeftOut,
        Slip::RelativeJudged,
        Slip::DifferenceJudged,
        Slip::BothRead,
        Slip::OtherForgotten,
        Slip::FromFirst,
        Slip::SumJudged,
        Slip::SumMadeUp,
        Slip::KindCut,
        Slip::AnySteps,
        Slip::MoreSteps,
        Slip::OriginNotJudged,
        Slip::LongFirst,
        Slip::GridFirst,
        Slip::RoomFirst,
        Slip::OneMore,
        Slip::OneFewer,
        Slip::CloseCorner,
        Slip::RoomByCorners,
        Slip::RoomOneShort,
        Slip::CountTold,
        Slip::WrittenBefore,
        Slip::WrittenPast,
    ];

    const END: f64 = 1_048_576.0;
    const GRID: f64 = 1_073_741_824.0;

    fn within(x: f64, y: f64) -> bool {
        x.abs() <= END && y.abs() <= END
    }

    /// What a sum of f64 lacks of the exact one.
    fn lost(a: f64, b: f64) -> f64 {
        let sum = a + b;
        let second = sum - a;
        (a - (sum - second)) + (b - second)
    }

    /// A relative line's sum; past the range where the exact one is.
    fn summed(slip: Slip, a: f64, b: f64, lacks: &mut f64) -> f64 {
        let b = if slip == Slip::SumMadeUp {
            b + *lacks
        } else {
            b
        };
        *lacks = lost(a, b);
        match slip {
            Slip::SumJudged if (a + b).abs() == END && *lacks * (a + b) > 0.0 => f64::INFINITY,
            _ => a + b,
        }
    }

    /// The points in plain f64; none for 14.
    fn points(slip: Slip, path: &[Item]) -> Option<Vec<(f64, f64)>> {
        let (first, rest) = path.split_first()?;
        let (last, lines) = rest.split_last()?;
        let kind = |item: &Item| match slip {
            Slip::KindCut => item.kind & u64::from(u32::MAX),
            _ => item.kind,
        };
        let start = (f64::from_bits(first.x), f64::from_bits(first.y));
        if kind(first) != MOVE || kind(last) != CLOSE || !within(start.0, start.1) {
            return None;
        }
        let mut points = vec![start];
        let mut at = start;
        let mut lacks = (0.0, 0.0);
        for line in lines {
            let (x, y) = (f64::from_bits(line.x), f64::from_bits(line.y));
            let lone = [HORIZONTAL, VERTICAL].contains(&kind(line));
            if slip == Slip::BothRead && lone && !(x.is_finite() && y.is_finite()) {
                return None;
            }
            if slip == Slip::RelativeJudged && kind(line) == RELATIVE_LINE && !within(x, y) {
                return None;
            }
            let from = if slip == Slip::FromFirst { start } else { at };
            at = match kind(line) {
                LINE => (x, y),
                HORIZONTAL if slip == Slip::OtherForgotten => (x, 0.0),
                HORIZONTAL => (x, at.1),
                VERTICAL => (at.0, y),
                RELATIVE_LINE => {
                    let x = summed(slip, from.0, x, &mut lacks.0);
                    (x, summed(slip, from.1, y, &mut lacks.1))
                }
                _ => return None,
            };
            let at_end = at.0.abs().max(at.1.abs()) == END;
            if !within(at.0, at.1) || slip == Slip::EndLeftOut && at_end {
                return None;
            }
            points.push(at);
        }
        Some(points)
    }

    fn whole(slip: Slip, v: f64) -> f64 {
        match slip {
            Slip::HalfUp => (v + 0.5).floor(),
            Slip::HalfEven => v.round_ties_even(),
            Slip::HalfAdded => (v + 0.5f64.copysign(v)).trunc(),
            Slip::Cut => v.trunc(),
            _ => v.round(),
        }
    }

    fn number(slip: Slip, v: f64, origin: f64, steps: f64) -> f64 {
        let difference = v - origin;
        match slip {
            Slip::OriginLast => whole(slip, v * steps) - (origin * steps).round(),
            Slip::LongDifference => {
                let lacks = lost(v, -origin);
                let told = whole(slip, difference * steps);
                let over = (told - difference * steps).abs() == 0.5;
                match over && lacks != 0.0 && lacks.signum() != difference.signum() {
                    true => told - difference.signum(),
                    false => told,
                }
            }
            _ => whole(slip, difference * steps),
        }
    }

    fn good_frame(slip: Slip, frame: HandedFrame) -> bool {
        let steps = frame.steps;
        let power = steps.fract() == 0.0 && (steps as u64).is_power_of_two();
        let most = if slip == Slip::MoreSteps {
            2_048.0
        } else {
            1_024.0
        };
        let judged = frame.x.is_finite() && frame.y.is_finite();
        (1.0..=most).contains(&steps)
            && (power || slip == Slip::AnySteps && steps.fract() == 0.0)
            && (judged || slip == Slip::OriginNotJudged)
    }

    /// The call in plain f64, right but for the slip.
    fn plain(slip: Slip, path: &[Item], frame: HandedFrame, out: &mut [i32]) -> ToldCorners {
        let refused = |fault| {
            let corners = if slip == Slip::CountTold {
                path.len() as u32
            } else {
                0
            };
            ToldCorners { fault, corners }
        };
        let corners = path.len().saturating_sub(1) + usize::from(slip == Slip::CloseCorner);
        let most = match slip {
            Slip::OneMore => 1_027,
            Slip::OneFewer => 1_025,
            _ => 1_026,
        };
        if slip == Slip::LongFirst && corners > most {
            return refused(7);
        }
        if slip == Slip::GridFirst && frame.x.is_finite() && frame.x.abs() > 2.0 * GRID {
            return refused(2);
        }
        let Some(points) = points(slip, path).filter(|_| good_frame(slip, frame)) else {
            return refused(14);
        };
        let far = |&(x, y): &(f64, f64)| !within(x - frame.x, y - frame.y);
        if slip == Slip::DifferenceJudged && points.iter().any(far) {
            return refused(14);
        }
        if corners > most {
            return refused(7);
        }
        let needed = match slip {
            Slip::RoomByCorners => points.len(),
            Slip::RoomOneShort => 2 * points.len() - 1,
            _ => 2 * points.len(),
        };
        if slip == Slip::RoomFirst && out.len() < needed {
            return refused(21);
        }
        let each = points.iter().flat_map(|&(x, y)| {
            let HandedFrame { x: a, y: b, steps } = frame;
            [number(slip, x, a, steps), number(slip, y, b, steps)]
        });
        let numbers: Vec<f64> = each.collect();
        if slip == Slip::WrittenBefore {
            out.iter_mut()
                .zip(&numbers)
                .for_each(|(o, &v)| *o = v as i32);
        }
        if !numbers.iter().all(|v| v.abs() < GRID) {
            return refused(2);
        }
        if out.len() < needed {
            return refused(21);
        }
        out.iter_mut()
            .zip(&numbers)
            .for_each(|(o, &v)| *o = v as i32);
        if let (Slip::WrittenPast, Some(next)) = (slip, out.get_mut(numbers.len())) {
            *next = 0;
        }
        ToldCorners {
            fault: 0,
            corners: points.len() as u32,
        }
    }

    /// As the entry point asks it. Safe: the memory is lent.
    fn asked(slip: Slip) -> impl Fn(Handed<Item>, HandedFrame, Handed<i32>) -> ToldCorners {
        move |path, frame, corners| unsafe { plain(slip, path.slice(), frame, corners.slice()) }
    }

    #[test]
    fn a_right_function_passes() {
        let report = run(&import_path_beside(asked(Slip::None)), 1, COUNT);
        assert!(report.passed(), "{report}");
        assert!(report.faults.values().all(|&times| times > 100), "{report}");
    }

    #[test]
    fn every_slip_is_caught() {
        for slip in SLIPS {
            let entry = import_path_beside(asked(slip));
            let differs = |q| entry.rattle(&q) != entry.rust(&q);
            let seen = entry.inputs(&mut Rng::new(1), 5_000).any(differs);
            assert!(seen, "{slip:?}");
        }
    }

    #[test]
    fn differences_are_made_small() {
        let small = |slip| {
            run(&import_path_beside(asked(slip)), 1, 0)
                .smallest
                .expect("one")
        };
        // 0 less a half goes away from zero
        let told = small(Slip::HalfUp);
        let half = "[move 0.0 0.0; close 0.0 0.0] frame 0.5 0.0 steps 1.0 numbers lent 2:";
        assert!(told.starts_with(half), "{told}");
        let told = small(Slip::CountTold);
        assert!(
            told.starts_with("[move 0.0 0.0] frame") || told.starts_with("[close"),
            "{told}"
        );
    }

    #[test]
    fn overruns_are_caught() {
        for at in overruns::ALL {
            let entry = import_path_beside(move |path, frame, corners| {
                let told = asked(Slip::None)(path, frame, corners);
                plant(path, at);
                told
            });
            seen(&entry, at);
        }
        for at in overruns::ENDS {
            let entry = import_path_beside(move |path, frame, corners| {
                let told = asked(Slip::None)(path, frame, corners);
                plant(corners, at);
                told
            });
            seen(&entry, at);
        }
    }

    #[test]
    fn simpler_inputs_come_to_an_end() {
        for bits in [1.5f64, -2.75, 1e300, f64::NAN, f64::NEG_INFINITY, 1e-310].map(f64::to_bits) {
            let fewer = |simpler: &u64| simpler.count_ones() < bits.count_ones();
            assert!(simpler_bits(bits).iter().all(fewer));
        }
        assert!(simpler_bits(0).is_empty());
        let item = |kind| Item { kind, x: 0, y: 0 };
        let kinds = |kind| {
            simpler_item(item(kind))
                .iter()
                .map(|i| i.kind)
                .collect::<Vec<_>>()
        };
        assert_eq!([0, 1, 2, 3, 4, 5, 6, 7].map(kinds).concat(), [1, 1, 1, 6]);
    }
}
