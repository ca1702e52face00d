//! Room lent for an answer of a known size.

use crate::rng::Rng;
use judge::room::{Room, Size};

/// Both buffers one place short, exact and longer, each with each.
pub fn every(size: Size) -> Vec<Room> {
    let places = |exact: usize| [exact.saturating_sub(1), exact, exact + 3];
    places(size.starts())
        .into_iter()
        .flat_map(|starts| places(size.numbers()).map(|numbers| Room { starts, numbers }))
        .collect()
}

/// Room about the size: enough, just not enough, or none.
pub fn about(rng: &mut Rng, size: Size) -> Room {
    let mut about = |exact: usize| match rng.below(8) {
        0 => 0,
        1 | 2 => exact.saturating_sub(1),
        3 => exact + 1,
        4 => exact + 100,
        _ => exact,
    };
    Room {
        starts: about(size.starts()),
        numbers: about(size.numbers()),
    }
}

/// Less room: half or one place less of either buffer.
pub fn less(room: Room) -> Vec<Room> {
    let fewer = |places: usize| {
        let some = [places / 2, places.saturating_sub(1)].into_iter();
        some.filter(move |&n| n < places)
    };
    let starts = fewer(room.starts).map(|starts| Room { starts, ..room });
    let numbers = fewer(room.numbers).map(|numbers| Room { numbers, ..room });
    starts.chain(numbers).collect()
}

#[cfg(test)]
mod tests {
    use super::*;
    use judge::room::fault;

    #[test]
    fn room_is_short_exact_and_longer() {
        let size = Size {
            parts: 2,
            corners: 7,
        };
        let faults: Vec<u32> = every(size).iter().map(|&room| fault(size, room)).collect();
        assert_eq!(faults, [22, 22, 22, 21, 0, 0, 21, 0, 0]);
        let mut rng = Rng::new(5);
        let some: Vec<Room> = (0..200).map(|_| about(&mut rng, size)).collect();
        for wanted in [0, 21, 22] {
            assert!(some.iter().any(|&room| fault(size, room) == wanted));
        }
        assert!(some
            .iter()
            .any(|room| room.starts == 3 && room.numbers == 14));
    }
}
