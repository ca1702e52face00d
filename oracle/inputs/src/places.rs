//! Walks as a caller may make them: any place, any number of steps left, any
//! segment ends, in the contour or past it.

use crate::rng::Rng;
use judge::walk::Place;

/// A place on a contour of so many corners, mostly in it.
pub fn any(rng: &mut Rng, corners: usize) -> Place {
    let index = |rng: &mut Rng| match rng.below(12) {
        0 => corners,
        1 => corners + 1 + rng.below(3),
        2 => usize::MAX,
        _ => rng.below(corners.max(1)),
    };
    let at = index(rng);
    let segment = if rng.once_in(3) {
        Some((index(rng), index(rng)))
    } else {
        None
    };
    Place {
        index: at,
        reverse: rng.once_in(2),
        remaining: rng.pick(&[0, 1, 2, 3, corners, corners + 1, usize::MAX]),
        reflected: rng.once_in(2),
        segment,
    }
}

#[cfg(test)]
mod tests {
    use super::*;
    use judge::walk::{point, stepped};

    #[test]
    fn good_and_bad_ones_occur() {
        let mut rng = Rng::new(51);
        let flat = [0, 0, 2, 0, 0, 2];
        let places: Vec<Place> = (0..500).map(|_| any(&mut rng, 3)).collect();
        let count = |test: &dyn Fn(Place) -> bool| places.iter().filter(|&&p| test(p)).count();
        assert!(count(&|p| stepped(&flat, p) == 0) > 50);
        assert!(count(&|p| stepped(&flat, p) == 23) > 50);
        assert!(count(&|p| stepped(&flat, p) == 23 && point(&flat, p) == 0) > 20);
    }
}
