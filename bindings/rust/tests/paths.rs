//! Outlines from a drawing program: each kind of item, rounding, and each refusal in its order.

use bezinkwolu::PathItem::*;
use bezinkwolu::*;

/// Millimetres that are in range, and the next number that is not.
const END: f64 = 1_048_576.0;
const PAST: f64 = END + 1.0 / 4_294_967_296.0;

const ONE: Frame = Frame::new(0.0, 0.0, 1.0);

fn imported(path: &[PathItem], frame: Frame) -> Result<Vec<(i32, i32)>, Error> {
    import_path(path, frame).map(|corners| corners.into_iter().map(<(i32, i32)>::from).collect())
}

/// A path of so many corners.
fn of_corners(count: usize) -> Vec<PathItem> {
    let mut path = vec![Line(1.0, 1.0); count + 1];
    (path[0], path[count]) = (Move(0.0, 0.0), Close);
    path
}

#[test]
fn each_kind_of_item_reaches_its_point() {
    let path = [
        Move(1.0, 2.0),
        Line(3.0, 1.0),
        Horizontal(5.25),
        Vertical(-2.0),
        RelativeLine(-0.25, 4.5),
        Close,
    ];
    let corners = [(0, 12), (8, 8), (17, 8), (17, -4), (16, 14)];
    assert_eq!(imported(&path, Frame::new(1.0, -1.0, 4.0)), Ok(corners.to_vec()));
    // repeated corners stay
    assert_eq!(
        imported(&[Move(1.0, 1.0), Horizontal(1.0), RelativeLine(0.0, -0.0), Close], ONE),
        Ok(vec![(1, 1); 3])
    );
    assert_eq!(imported(&[Move(-0.0, 7.0), Close], ONE), Ok(vec![(0, 7)]));
}

/// Beside 0.5 stands the greatest number below it, whose sum with one half is 1 in `f64`.
#[test]
fn halves_go_away_from_zero() {
    let less = f64::from_bits(0.5f64.to_bits() - 1);
    let path = [Move(0.5, -0.5), Line(less, -less), Line(2.5, -2.5), Close];
    assert_eq!(imported(&path, ONE), Ok(vec![(1, -1), (0, 0), (3, -3)]));
}

#[test]
fn both_ranges_have_their_ends() {
    let wide = 1 << 29;
    let across = [Move(END, -END), RelativeLine(-2.0 * END, 0.0), Close];
    assert_eq!(imported(&across, Frame::new(0.0, 0.0, 512.0)), Ok(vec![(wide, -wide), (-wide, -wide)]));
    assert_eq!(imported(&across, Frame::new(0.0, 0.0, 1024.0)), Err(Error::RANGE));
    for past in [Move(PAST, 0.0), Move(0.0, -PAST), Move(0.0, f64::NAN), Move(f64::INFINITY, 0.0)] {
        assert_eq!(imported(&[past, Close], ONE), Err(Error::PATH), "{past:?}");
    }
    for back in [Line(PAST, 0.0), Horizontal(-PAST), Vertical(PAST), RelativeLine(PAST, 0.0)] {
        assert_eq!(imported(&[Move(0.0, 0.0), back, Line(0.0, 0.0), Close], ONE), Err(Error::PATH), "{back:?}");
    }
    // a grid coordinate that is infinite
    assert_eq!(imported(&[Move(0.0, 0.0), Close], Frame::new(f64::MAX, 0.0, 1024.0)), Err(Error::RANGE));
}

#[test]
fn frames_and_orders_are_judged() {
    let path = of_corners(3);
    for steps in [1.0, 2.0, 4.0, 8.0, 16.0, 32.0, 64.0, 128.0, 256.0, 512.0, 1024.0] {
        assert_eq!(imported(&path, Frame::new(0.0, 0.0, steps)).map(|c| c[1]), Ok((steps as i32, steps as i32)));
    }
    for steps in [0.0, -1.0, 0.5, 3.0, 1023.0, 2048.0, f64::NAN, f64::INFINITY] {
        assert_eq!(imported(&path, Frame::new(0.0, 0.0, steps)), Err(Error::PATH), "{steps}");
    }
    for frame in [Frame::new(f64::NAN, 0.0, 1.0), Frame::new(0.0, f64::NEG_INFINITY, 1.0)] {
        assert_eq!(imported(&path, frame), Err(Error::PATH));
    }
    let (to, line, close) = (path[0], path[1], path[3]);
    let orders: [&[PathItem]; 8] = [
        &[],
        &[to],
        &[close],
        &[to, line],
        &[line, close],
        &[to, to, close],
        &[to, close, close],
        &[to, close, line],
    ];
    for order in orders {
        assert_eq!(imported(order, ONE), Err(Error::PATH), "{order:?}");
    }
}

#[test]
fn the_kinds_of_fault_have_their_order() {
    assert_eq!(imported(&of_corners(1026), ONE).map(|c| c.len()), Ok(1026));
    let mut long = of_corners(1027);
    assert_eq!(imported(&long, ONE), Err(Error::RULES));
    // a coordinate off the grid too, and then no close as well
    long[1] = Line(END, 0.0);
    let fine = Frame::new(0.0, 0.0, 1024.0);
    assert_eq!(imported(&long, fine), Err(Error::RULES));
    assert_eq!(imported(&long[..1027], fine), Err(Error::PATH));
    assert_eq!(imported(&[long[0], long[1], Close], fine), Err(Error::RANGE));
    assert_eq!(imported(&[long[0], long[1]], fine), Err(Error::PATH));
}
