//! Memory lent to a call, with places on either side that are not lent. Every list and
//! every buffer that an entry point hands over is a `Lent`: a call that changes a list,
//! or writes before a buffer or behind it, leaves another answer than the Rust's.

use crate::mesh::Row;
use judge::path::Item;
use std::fmt::{self, Debug};
use std::ops::Range;

/// How many places on either side are not lent.
const UNLENT: usize = 2;

/// What can be lent, and what place `i` of the memory holds before a call.
pub trait Place: Copy + PartialEq + Debug {
    fn mark(i: usize) -> Self;
}

impl Place for u8 {
    fn mark(i: usize) -> Self {
        0xa5 ^ i as u8
    }
}

impl Place for u32 {
    fn mark(i: usize) -> Self {
        0xa5a5_0000 + i as u32
    }
}

impl Place for i32 {
    fn mark(i: usize) -> Self {
        -0x5a5a_0000 - i as i32
    }
}

impl Place for Row {
    fn mark(i: usize) -> Self {
        [i32::mark(i); 9]
    }
}

impl Place for Item {
    fn mark(i: usize) -> Self {
        let [kind, x, y] = [0, 1, 2].map(|part| 0xa5a5_a5a5_0000_0000 + (part << 24) + i as u64);
        Self { kind, x, y }
    }
}

/// The lent places and those on either side; equal where all of them are.
#[derive(Clone, PartialEq, Eq)]
pub struct Lent<T>(Vec<T>);

impl<T: Place> Lent<T> {
    /// So many places, each with a mark of its own.
    pub fn places(count: usize) -> Self {
        Self((0..count + 2 * UNLENT).map(T::mark).collect())
    }

    /// A list.
    pub fn list(list: &[T]) -> Self {
        let mut lent = Self::places(list.len());
        lent.slice_mut().copy_from_slice(list);
        lent
    }

    /// The lent places.
    pub fn slice(&self) -> &[T] {
        &self.0[UNLENT..self.0.len() - UNLENT]
    }

    pub fn slice_mut(&mut self) -> &mut [T] {
        let end = self.0.len() - UNLENT;
        &mut self.0[UNLENT..end]
    }

    /// As they are handed over.
    pub fn handed(&mut self) -> Handed<T> {
        Handed {
            at: self.0[UNLENT..].as_mut_ptr(),
            length: self.0.len() - 2 * UNLENT,
        }
    }

    /// Whether it is this list still, and nothing about it has changed.
    pub fn holds(&self, list: &[T]) -> bool {
        let ends = [0..UNLENT, self.0.len() - UNLENT..self.0.len()];
        self.slice() == list && ends.into_iter().all(|end| self.marked(end))
    }

    fn marked(&self, places: Range<usize>) -> bool {
        places.into_iter().all(|i| self.0[i] == T::mark(i))
    }

    /// Whether nothing but the first `count` lent places has changed; each place then
    /// has its mark again.
    pub fn begun_anew(&mut self, count: usize) -> bool {
        let kept = self.marked(0..UNLENT) && self.marked(UNLENT + count..self.0.len());
        let changed = match kept {
            true => UNLENT..UNLENT + count,
            false => 0..self.0.len(),
        };
        for i in changed {
            self.0[i] = T::mark(i);
        }
        kept
    }
}

impl<T: Debug> Debug for Lent<T> {
    fn fmt(&self, f: &mut fmt::Formatter<'_>) -> fmt::Result {
        let (before, rest) = self.0.split_at(UNLENT);
        let (lent, behind) = rest.split_at(rest.len() - UNLENT);
        write!(f, "{before:?} {lent:?} {behind:?}")
    }
}

/// Lent memory as C takes it: where it begins, and how many places it has.
#[derive(Debug, Clone, Copy)]
pub struct Handed<T> {
    pub at: *mut T,
    pub length: usize,
}

impl<T> Handed<T> {
    /// The places, for a function of Rust.
    ///
    /// # Safety
    /// The memory is still lent, and no other slice of it is in use.
    pub unsafe fn slice<'a>(self) -> &'a mut [T] {
        std::slice::from_raw_parts_mut(self.at, self.length)
    }
}

impl<T> From<&mut [T]> for Handed<T> {
    fn from(places: &mut [T]) -> Self {
        Self {
            at: places.as_mut_ptr(),
            length: places.len(),
        }
    }
}

/// A list that is only read.
impl<T> From<&[T]> for Handed<T> {
    fn from(list: &[T]) -> Self {
        Self {
            at: list.as_ptr().cast_mut(),
            length: list.len(),
        }
    }
}

/// What a call told, and whether the lists that it was lent, and what stands about
/// them, are as they were.
#[derive(Clone, PartialEq, Eq)]
pub struct Kept<T> {
    pub told: T,
    pub kept: bool,
}

impl<T> Kept<T> {
    /// As it should be.
    pub fn all(told: T) -> Self {
        Self { told, kept: true }
    }
}

impl<T: Debug> Debug for Kept<T> {
    fn fmt(&self, f: &mut fmt::Formatter<'_>) -> fmt::Result {
        self.told.fmt(f)?;
        match self.kept {
            true => Ok(()),
            false => write!(f, " and a lent list, or what stands about it, changed"),
        }
    }
}

/// Overruns planted in functions that are right but for them.
#[cfg(test)]
pub mod overruns {
    use super::*;
    use crate::entry::EntryPoint;
    use inputs::rng::Rng;

    /// Where a place is changed that the call may not change.
    #[derive(Debug, Clone, Copy, PartialEq, Eq)]
    pub enum At {
        Before,
        Behind,
        /// Of a list, which is only lent to be read.
        First,
    }

    /// Of a buffer, and of a list.
    pub const ENDS: [At; 2] = [At::Before, At::Behind];
    pub const ALL: [At; 3] = [At::Before, At::Behind, At::First];

    /// Changes one place.
    pub fn plant<T: Place>(handed: Handed<T>, at: At) {
        let Handed { at: first, length } = handed;
        // Safe: places on either side are there, though they are not lent.
        unsafe {
            match at {
                At::Before => first.sub(1).write(T::mark(UNLENT)),
                At::Behind => first.add(length).write(T::mark(UNLENT + length + 1)),
                At::First if length > 0 => first.write(T::mark(UNLENT + 1_000)),
                At::First => {}
            }
        }
    }

    /// Every one of the first inputs shows it; of a list's first place, one does that
    /// has such a place.
    pub fn seen<E: EntryPoint>(entry: &E, at: At) {
        let mut rng = Rng::new(1);
        let mut inputs = entry.inputs(&mut rng, 0);
        let differs = |input: E::Input| entry.rattle(&input) != entry.rust(&input);
        let seen = match at {
            At::First => inputs.take(20_000).any(differs),
            _ => inputs.by_ref().take(200).all(differs),
        };
        assert!(seen, "{}: {at:?}", entry.name());
    }

    #[test]
    fn a_list_holds_its_own_and_what_stands_about_it() {
        for length in 0..4 {
            let list: Vec<i32> = (0..length).collect();
            let lent = Lent::list(&list);
            assert!(lent.holds(&list));
            assert_eq!(lent.slice(), list);
            for at in ALL {
                let mut changed = lent.clone();
                plant(changed.handed(), at);
                assert_eq!(changed.holds(&list), at == At::First && length == 0);
                assert_eq!(changed == lent, at == At::First && length == 0);
            }
        }
    }

    #[test]
    fn places_begin_anew() {
        for count in 0..=3 {
            let first = Lent::<u8>::places(3);
            for at in ENDS {
                let mut lent = first.clone();
                plant(lent.handed(), at);
                assert!(!lent.begun_anew(count));
                assert_eq!(lent, first);
            }
            let mut lent = first.clone();
            lent.slice_mut()[..count].fill(0);
            assert!(count == 0 || !lent.clone().begun_anew(count - 1));
            assert!(lent.begun_anew(count));
            assert_eq!(lent, first);
        }
    }
}
