//! Doubled areas and bounds of contours, part tables and pair results.

use bezinkwolu::*;

const HALF: i32 = 1 << 29;

/// So many times round a square of side 2^30: 2^61 a round.
fn rounds(times: usize) -> Vec<(i32, i32)> {
    [(-HALF, -HALF), (HALF, -HALF), (HALF, HALF), (-HALF, HALF)].repeat(times)
}

fn turned(contour: Vec<(i32, i32)>) -> Vec<(i32, i32)> {
    contour.into_iter().rev().collect()
}

#[test]
fn areas_have_signs_and_add_up() {
    let table: PartTable = [vec![(0, 4), (0, 0), (4, 0)], vec![], vec![(0, 4), (10, -2), (4, 0)], vec![(12, -9)]]
        .into_iter()
        .collect();
    let areas: Vec<_> = table.iter().map(Contour::area_two).collect();
    assert_eq!(areas, [Ok(16), Ok(0), Ok(-16), Ok(0)]);
    assert_eq!(table.area_two(), Ok(0));
    assert_eq!(table.bbox(), Ok(IntRect::new(0, 12, -9, 4)));
    assert_eq!(PartTable::new().area_two(), Ok(0));
    assert_eq!(PartTable::new().bbox(), Ok(IntRect::new(0, 0, 0, 0)));
}

#[test]
fn past_64_bits_and_out_of_range_are_refused() {
    let whole: PartTable = [rounds(4)].into_iter().collect();
    assert_eq!(whole.contour(0).unwrap().area_two(), Err(Error::TOTAL));
    assert_eq!(whole.area_two(), Err(Error::TOTAL));
    // on the way only
    let both: PartTable = [rounds(4), turned(rounds(1))].into_iter().collect();
    assert_eq!(both.area_two(), Ok(3 << 61));
    let least: PartTable = [turned(rounds(4))].into_iter().collect();
    assert_eq!(least.area_two(), Ok(i64::MIN));
    let beyond: PartTable = [[(0, 0), (1 << 30, 0), (0, 1)]].into_iter().collect();
    assert_eq!(beyond.contour(0).unwrap().area_two(), Err(Error::RANGE));
    assert_eq!((beyond.area_two(), beyond.bbox()), (Err(Error::RANGE), Err(Error::RANGE)));
}

/// A pair result has more parts than a part table may have.
#[test]
fn pair_results_are_measured() {
    let many: PartTable = (0..60).map(|i| [(3 * i, 0), (3 * i + 2, 0), (3 * i, 2)]).collect();
    let bbox = many.bbox().unwrap();
    assert_eq!(bbox, IntRect::new(0, 179, 0, 2));
    let sums = sum_parts(&many, bbox, &many, bbox).unwrap();
    assert_eq!(sums.contours().len(), 3600);
    assert_eq!(sums.contours().area_two(), Ok(3600 * 16));
    assert_eq!(sums.contours().bbox(), Ok(sums.bbox()));
    assert!(sums.iter().all(|(_, _, contour)| contour.area_two() == Ok(16)));
}
