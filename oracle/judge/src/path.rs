//! A path from a drawing program, in millimetres, to corners on the grid: 14, 7, 2 and 21, each
//! over the whole path before the next (document 02, P1). Values are exact; what the paper
//! rounds is rounded where it says so: a relative line's sum and the difference from the origin
//! to the nearest number of f64, each once, and their multiple to a whole number.

use crate::exact::Exact;
use crate::limits::{in_range, CONTOUR, MILLIMETRES, STEPS};
use crate::{Contour, Fault};

/// The kinds of items. All but the relative line are absolute, as SVG's capital letters are.
pub const MOVE: u64 = 0;
pub const LINE: u64 = 1;
pub const HORIZONTAL: u64 = 2;
pub const VERTICAL: u64 = 3;
pub const RELATIVE_LINE: u64 = 4;
pub const CLOSE: u64 = 5;

/// An item as C has it. Numbers stand as their bits, since one that the item does not carry may
/// hold any.
#[repr(C)]
#[derive(Debug, Clone, Copy, PartialEq, Eq)]
pub struct Item {
    pub kind: u64,
    pub x: u64,
    pub y: u64,
}

/// The origin in millimetres and the steps a millimetre, as bits.
#[derive(Debug, Clone, Copy, PartialEq, Eq)]
pub struct Frame {
    pub x: u64,
    pub y: u64,
    pub steps: u64,
}

/// A current point in millimetres.
pub type Point = [Exact; 2];

/// The corners that are written to so many lent numbers, or the fault.
pub fn imported(path: &[Item], frame: &Frame, lent: usize) -> Result<Contour, Fault> {
    let points = points(path).ok_or(14u32)?;
    let grid = Grid::of(frame).ok_or(14u32)?;
    if points.len() > CONTOUR {
        return Err(7);
    }
    let corner = |&[x, y]: &Point| Some((grid.number(x, 0)?, grid.number(y, 1)?));
    let corners: Option<Contour> = points.iter().map(corner).collect();
    match corners.ok_or(2u32)? {
        corners if lent < 2 * corners.len() => Err(21),
        corners => Ok(corners),
    }
}

/// The points that a path reaches, its move's among them; none where 14 is told of it.
pub fn points(path: &[Item]) -> Option<Vec<Point>> {
    let (first, rest) = path.split_first()?;
    let (last, lines) = rest.split_last()?;
    if first.kind != MOVE || last.kind != CLOSE {
        return None;
    }
    let mut at = in_reach([Exact::of(first.x)?, Exact::of(first.y)?])?;
    let mut points = vec![at];
    for line in lines {
        at = in_reach(reached(at, line)?)?;
        points.push(at);
    }
    Some(points)
}

/// Where an item that draws a line leads from a point; none where it is another, and where a
/// number that it carries is not finite.
fn reached([x, y]: Point, item: &Item) -> Option<Point> {
    let plus = |at: Exact, bits: u64| Exact::of(at.plus(Exact::of(bits)?).nearest());
    match item.kind {
        LINE => Some([Exact::of(item.x)?, Exact::of(item.y)?]),
        HORIZONTAL => Some([Exact::of(item.x)?, y]),
        VERTICAL => Some([x, Exact::of(item.y)?]),
        RELATIVE_LINE => Some([plus(x, item.x)?, plus(y, item.y)?]),
        _ => None,
    }
}

/// The point, where both coordinates lie within the range of millimetres, its ends included.
fn in_reach(point: Point) -> Option<Point> {
    let end = Exact::whole(MILLIMETRES);
    point.iter().all(|v| v.within(end)).then_some(point)
}

/// A frame whose numbers are as they have to be.
pub struct Grid {
    pub origin: Point,
    /// The step count, as a power of two.
    pub power: usize,
}

impl Grid {
    /// None where the step count is no power of two from 1 to 1,024 or the origin is not finite.
    pub fn of(frame: &Frame) -> Option<Self> {
        let steps = Exact::of(frame.steps)?;
        let power = (0..=STEPS).find(|&k| steps == Exact::whole(1 << k))?;
        let origin = [Exact::of(frame.x)?, Exact::of(frame.y)?];
        Some(Self { origin, power })
    }

    /// The grid coordinate of one in millimetres, x by 0 and y by 1; none where it is past the
    /// range, as it is too where f64 has no such difference or no such product.
    fn number(&self, value: Exact, axis: usize) -> Option<i32> {
        let difference = Exact::of(value.minus(self.origin[axis]).nearest())?;
        let whole = difference.doubled(self.power).nearest_whole()?;
        i32::try_from(whole).ok().filter(|&v| in_range(v))
    }
}

#[cfg(test)]
mod tests {
    use super::*;

    const UP: fn(f64) -> f64 = |v| f64::from_bits(v.to_bits() + 1);
    const DOWN: fn(f64) -> f64 = |v| f64::from_bits(v.to_bits() - 1);

    /// Past any answer of these.
    const AMPLE: usize = 100_000;

    fn item(kind: u64, x: f64, y: f64) -> Item {
        let [x, y] = [x, y].map(f64::to_bits);
        Item { kind, x, y }
    }

    fn to(x: f64, y: f64) -> Item {
        item(LINE, x, y)
    }

    fn by(x: f64, y: f64) -> Item {
        item(RELATIVE_LINE, x, y)
    }

    fn frame(x: f64, y: f64, steps: f64) -> Frame {
        let [x, y, steps] = [x, y, steps].map(f64::to_bits);
        Frame { x, y, steps }
    }

    /// From a point by some lines; the close holds what is no number.
    fn path(from: (f64, f64), lines: &[Item]) -> Vec<Item> {
        let close = item(CLOSE, f64::NAN, f64::INFINITY);
        [&[item(MOVE, from.0, from.1)], lines, &[close]].concat()
    }

    /// Of a path that is one point.
    fn alone(x: f64, y: f64, frame: Frame) -> Result<Contour, Fault> {
        imported(&path((x, y), &[]), &frame, 2)
    }

    #[test]
    fn every_kind_of_item() {
        let lines = [
            to(3.0, 1.0),
            item(HORIZONTAL, 5.25, f64::NAN),
            item(VERTICAL, f64::NEG_INFINITY, -2.0),
            by(-0.25, 4.5),
            by(0.0, -0.0),
        ];
        let told = imported(&path((1.0, 2.0), &lines), &frame(1.0, -1.0, 4.0), 12);
        let corners = [(0, 12), (8, 8), (17, 8), (17, -4), (16, 14), (16, 14)];
        assert_eq!(told, Ok(corners.to_vec()));
        assert_eq!(alone(-0.0, 7.0, frame(-0.0, 0.0, 1.0)), Ok(vec![(0, 7)]));
    }

    #[test]
    fn halves_of_both_signs_and_their_neighbours() {
        let one = frame(0.0, 0.0, 1.0);
        for (value, told) in [
            (0.5, 1),
            (2.5, 3),
            (UP(2.5), 3),
            (DOWN(2.5), 2),
            (DOWN(0.5), 0),
        ] {
            assert_eq!(
                alone(value, -value, one),
                Ok(vec![(told, -told)]),
                "{value}"
            );
        }
        // 0.125 · 4 is a half
        assert_eq!(
            alone(0.125, DOWN(0.125), frame(0.0, 0.0, 4.0)),
            Ok(vec![(1, 0)])
        );
    }

    #[test]
    fn a_difference_is_rounded_before_it_is_made_whole() {
        // 2.5 less the least number of f64 is 2.5 there, and so is 2.5 − 2^−60
        let told = alone(2.5, -2.5, frame(f64::from_bits(1), f64::from_bits(1), 1.0));
        assert_eq!(told, Ok(vec![(3, -3)]));
        let small = f64::from_bits((1_023 - 60) << 52);
        assert_eq!(
            alone(-small, small, frame(-2.5, 2.5, 1.0)),
            Ok(vec![(3, -3)])
        );
        // but 2.5 − 2^−51 is a number
        let small = f64::from_bits((1_023 - 51) << 52);
        assert_eq!(
            alone(-small, small, frame(-2.5, 2.5, 1.0)),
            Ok(vec![(2, -2)])
        );
    }

    #[test]
    fn relative_lines_add_with_one_rounding_each() {
        // 1 + 2^−53 is 1 again, however often, and 2^−53 twice at once is not
        let small = f64::from_bits((1_023 - 53) << 52);
        let origin = frame(1.0, 1.0, 1.0);
        let reaches = |lines: &[Item]| {
            let points = points(&path((1.0, 1.0), lines)).expect("in range");
            points.last().expect("a point")[0]
        };
        assert_eq!(
            reaches(&[by(small, small), by(small, 0.0)]),
            Exact::whole(1)
        );
        let twice = Exact::whole(1).plus(Exact::part(52));
        assert_eq!(reaches(&[by(2.0 * small, 0.0)]), twice);
        // 0.1 three times is one place past 0.3
        let tenth = by(0.1, 0.0);
        let lines = path((0.0, 0.0), &[tenth, tenth, tenth]);
        let third = points(&lines).expect("in range")[3][0];
        assert_eq!(
            Some(third),
            Exact::of(0.300_000_000_000_000_04f64.to_bits())
        );
        assert_eq!(imported(&lines, &origin, 8).expect("taken")[3], (-1, -1));
    }

    #[test]
    fn the_range_of_millimetres() {
        let end = 1_048_576.0;
        let one = frame(0.0, 0.0, 1.0);
        assert_eq!(alone(end, -end, one), Ok(vec![(1 << 20, -(1 << 20))]));
        for past in [
            (UP(end), 0.0),
            (-UP(end), 0.0),
            (0.0, UP(end)),
            (0.0, f64::MIN),
        ] {
            assert_eq!(alone(past.0, past.1, one), Err(14));
        }
        let told = |from, lines: &[Item]| imported(&path(from, lines), &one, AMPLE);
        // a relative line may be longer than the range, and what is reached is judged rounded
        assert!(told((-end, 0.0), &[by(2.0 * end, 0.0)]).is_ok());
        assert_eq!(told((end, 0.0), &[by(1.0, 0.0), by(-1.0, 0.0)]), Err(14));
        let half_step = f64::from_bits((1_023 - 33) << 52);
        assert!(told((end, 0.0), &[by(half_step, 0.0)]).is_ok());
        assert_eq!(told((end, 0.0), &[by(UP(half_step), 0.0)]), Err(14));
        assert_eq!(told((end, 0.0), &[by(f64::MAX, 0.0)]), Err(14));
        // what a horizontal keeps has been judged, what it does not carry is not
        assert!(told((0.0, end), &[item(HORIZONTAL, end, 1e9)]).is_ok());
        assert_eq!(told((0.0, 0.0), &[item(VERTICAL, 0.0, 1e9)]), Err(14));
    }

    #[test]
    fn the_range_of_the_grid() {
        let most = (1 << 30) - 1;
        let fine = frame(0.0, 0.0, 1_024.0);
        let half = 1_048_576.0 - 1.0 / 2_048.0;
        assert_eq!(
            alone(DOWN(half), -DOWN(half), fine),
            Ok(vec![(most, -most)])
        );
        for past in [half, -half, 1_048_576.0, -1_048_576.0] {
            assert_eq!(alone(past, 0.0, fine), Err(2));
            assert_eq!(alone(0.0, past, fine), Err(2));
        }
        let far = |x: f64| alone(0.0, 0.0, frame(x, 0.0, 1.0));
        assert_eq!(far(-1_073_741_823.0), Ok(vec![(most, 0)]));
        assert_eq!(far(1_073_741_823.25), Ok(vec![(-most, 0)]));
        for x in [
            1_073_741_823.5,
            4_294_967_296.0,
            1.844_674_407_370_955_2e19,
            1e300,
            f64::MAX,
        ] {
            assert_eq!([far(x), far(-x)], [Err(2), Err(2)]);
        }
        // a product that f64 does not have
        assert_eq!(alone(0.0, 0.0, frame(0.0, f64::MAX, 1_024.0)), Err(2));
    }

    #[test]
    fn step_counts_and_numbers_that_are_given() {
        for k in 0..=10 {
            assert!(alone(1.0, 1.0, frame(0.0, 0.0, f64::from(1 << k))).is_ok());
        }
        for steps in [
            0.0,
            -0.0,
            -1.0,
            0.5,
            3.0,
            1_023.0,
            2_048.0,
            f64::NAN,
            f64::INFINITY,
        ] {
            assert_eq!(alone(1.0, 1.0, frame(0.0, 0.0, steps)), Err(14), "{steps}");
        }
        for steps in [
            UP(1.0),
            DOWN(1.0),
            UP(1_024.0),
            DOWN(1_024.0),
            f64::from_bits(1),
        ] {
            assert_eq!(alone(1.0, 1.0, frame(0.0, 0.0, steps)), Err(14), "{steps}");
        }
        for bad in [f64::NAN, -f64::NAN, f64::INFINITY, f64::NEG_INFINITY] {
            assert_eq!(alone(bad, 0.0, frame(0.0, 0.0, 1.0)), Err(14));
            assert_eq!(alone(0.0, 0.0, frame(0.0, bad, 1.0)), Err(14));
            for line in [to(0.0, bad), item(HORIZONTAL, bad, 0.0), by(bad, 0.0)] {
                let path = path((0.0, 0.0), &[line]);
                assert_eq!(imported(&path, &frame(0.0, 0.0, 1.0), AMPLE), Err(14));
            }
        }
    }

    #[test]
    fn items_missing_and_out_of_place() {
        let (m, l, z) = (item(MOVE, 1.0, 1.0), to(2.0, 2.0), item(CLOSE, 0.0, 0.0));
        let told = |path: &[Item]| imported(path, &frame(0.0, 0.0, 1.0), AMPLE);
        assert_eq!(told(&[m, z]), Ok(vec![(1, 1)]));
        assert_eq!(told(&[m, l, l, z]), Ok(vec![(1, 1), (2, 2), (2, 2)]));
        let wrong: [&[Item]; 12] = [
            &[],
            &[m],
            &[z],
            &[l],
            &[z, m],
            &[m, l],
            &[l, z],
            &[m, m, z],
            &[m, z, z],
            &[l, m, z],
            &[m, z, l],
            &[m, z, m, z],
        ];
        assert!(wrong.iter().all(|path| told(path) == Err(14)));
        for kind in [6, 7, 1 << 32, 1 << 63, u64::MAX] {
            assert_eq!(told(&[m, item(kind, 0.0, 0.0), z]), Err(14));
            assert_eq!(told(&[Item { kind, ..m }, z]), Err(14));
            assert_eq!(told(&[m, Item { kind, ..z }]), Err(14));
        }
    }

    #[test]
    fn each_kind_over_the_whole_path_before_the_next() {
        let good = frame(0.0, 0.0, 1.0);
        let past = frame(-4e9, 0.0, 1.0);
        let long = |corners: usize| path((0.0, 0.0), &vec![to(1.0, 1.0); corners - 1]);
        assert_eq!(
            imported(&long(1_026), &good, 2_052).map(|c| c.len()),
            Ok(1_026)
        );
        assert_eq!(imported(&long(1_026), &good, 2_051), Err(21));
        assert_eq!(imported(&long(1_026), &past, 2_051), Err(2));
        assert_eq!(imported(&long(1_027), &good, AMPLE), Err(7));
        assert_eq!(imported(&long(1_027), &past, 0), Err(7));
        let mut bad = long(30_000);
        assert_eq!(imported(&bad, &past, 0), Err(7));
        bad[29_999].y = f64::NAN.to_bits();
        assert_eq!(imported(&bad, &past, 0), Err(14));
        assert_eq!(imported(&long(1_027), &frame(0.0, 0.0, 3.0), 0), Err(14));
        for (lent, told) in [(0, Err(21)), (1, Err(21)), (2, Ok(vec![(1, 0)]))] {
            assert_eq!(imported(&path((1.0, 0.0), &[]), &good, lent), told);
        }
    }
}
