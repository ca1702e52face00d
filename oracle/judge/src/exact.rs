//! The numbers of f64 (IEEE 754 binary64, by their bits) as whole numbers of its least step,
//! 2^−1074: added, doubled and rounded in whole numbers alone, so that no rounding of the
//! machine stands in an answer.

use std::cmp::Ordering;

/// 1 is 2^1074 steps.
const ONE: usize = 1_074;

/// From 2^1024 on there is no number of f64.
const INFINITE: usize = ONE + 1_024;

/// The bits of a fraction, and the exponent that stands for infinity or no number.
const FRACTION: usize = 52;
const NOT_FINITE: u64 = 0x7ff;

/// 2,176 bits: a sum of two numbers, 1,024 times, has at most 2,109.
const WORDS: usize = 34;

/// A magnitude, least word first.
type Steps = [u64; WORDS];

/// A sum of numbers of f64, or some times one, without any rounding.
#[derive(Debug, Clone, Copy, PartialEq, Eq)]
pub struct Exact {
    negative: bool,
    steps: Steps,
}

impl Exact {
    /// None of infinity, and of what is no number.
    pub fn of(bits: u64) -> Option<Self> {
        let (exponent, fraction) = (bits >> FRACTION & NOT_FINITE, bits & ((1 << FRACTION) - 1));
        let (whole, shift) = match exponent {
            NOT_FINITE => return None,
            0 => (fraction, 0),
            _ => (fraction | 1 << FRACTION, exponent as usize - 1),
        };
        Some(Self::signed(bits >> 63 == 1, raised(word(whole), shift)))
    }

    pub fn whole(value: i64) -> Self {
        Self::signed(value < 0, raised(word(value.unsigned_abs()), ONE))
    }

    /// 2 to the power of −k, for k up to 1,074.
    pub fn part(k: usize) -> Self {
        Self::signed(false, raised(word(1), ONE - k))
    }

    /// Zero has one sign.
    fn signed(negative: bool, steps: Steps) -> Self {
        let negative = negative && top(&steps).is_some();
        Self { negative, steps }
    }

    pub fn negated(self) -> Self {
        Self::signed(!self.negative, self.steps)
    }

    pub fn plus(self, other: Self) -> Self {
        if self.negative == other.negative {
            return Self::signed(self.negative, sum(self.steps, &other.steps));
        }
        match order(&self.steps, &other.steps) {
            Ordering::Less => Self::signed(other.negative, less(other.steps, &self.steps)),
            _ => Self::signed(self.negative, less(self.steps, &other.steps)),
        }
    }

    pub fn minus(self, other: Self) -> Self {
        self.plus(other.negated())
    }

    /// Times 2 to the power of k, for k up to 10.
    pub fn doubled(self, k: usize) -> Self {
        Self::signed(self.negative, raised(self.steps, k))
    }

    /// Whether it is no farther from zero than the other.
    pub fn within(self, other: Self) -> bool {
        order(&self.steps, &other.steps) != Ordering::Greater
    }

    /// The bits of the nearest number of f64, of two as near the one whose fraction is even;
    /// infinity where that is past all of them.
    pub fn nearest(self) -> u64 {
        let sign = u64::from(self.negative) << 63;
        // the steps of the last place that is kept, as a power of two
        let place = top(&self.steps).map_or(0, |top| top.saturating_sub(FRACTION));
        let mut kept = lowered(self.steps, place)[0];
        if place > 0 {
            let rest = less(self.steps, &raised(word(kept), place));
            kept += match order(&rest, &raised(word(1), place - 1)) {
                Ordering::Less => 0,
                Ordering::Equal => kept & 1,
                Ordering::Greater => 1,
            };
        }
        let steps = raised(word(kept), place);
        match top(&steps) {
            Some(top) if top >= INFINITE => sign | NOT_FINITE << FRACTION,
            Some(top) if top >= FRACTION => {
                let fraction = lowered(steps, top - FRACTION)[0] & ((1 << FRACTION) - 1);
                sign | ((top - FRACTION + 1) as u64) << FRACTION | fraction
            }
            _ => sign | kept,
        }
    }

    /// The nearest whole number, a half away from zero; none where 62 bits do not hold it.
    pub fn nearest_whole(self) -> Option<i64> {
        let half = raised(word(1), ONE - 1);
        let whole = lowered(sum(self.steps, &half), ONE);
        if top(&whole).is_some_and(|top| top >= 62) {
            return None;
        }
        let magnitude = whole[0] as i64;
        Some(if self.negative { -magnitude } else { magnitude })
    }
}

/// Whether the bits are those of a finite number.
pub fn is_finite(bits: u64) -> bool {
    Exact::of(bits).is_some()
}

// ---- magnitudes

fn word(value: u64) -> Steps {
    let mut out = [0; WORDS];
    out[0] = value;
    out
}

/// The place of the highest bit; none of zero.
fn top(steps: &Steps) -> Option<usize> {
    let at = steps.iter().rposition(|&word| word != 0)?;
    Some(64 * at + 63 - steps[at].leading_zeros() as usize)
}

fn order(a: &Steps, b: &Steps) -> Ordering {
    a.iter().rev().cmp(b.iter().rev())
}

fn sum(mut a: Steps, b: &Steps) -> Steps {
    let mut carry = false;
    for (a, &b) in a.iter_mut().zip(b) {
        let (partial, first) = a.overflowing_add(b);
        let (total, second) = partial.overflowing_add(u64::from(carry));
        (*a, carry) = (total, first || second);
    }
    assert!(!carry, "a sum has room");
    a
}

/// Of the greater the lesser.
fn less(mut a: Steps, b: &Steps) -> Steps {
    let mut borrow = false;
    for (a, &b) in a.iter_mut().zip(b) {
        let (partial, first) = a.overflowing_sub(b);
        let (rest, second) = partial.overflowing_sub(u64::from(borrow));
        (*a, borrow) = (rest, first || second);
    }
    assert!(!borrow, "the greater is first");
    a
}

/// Times 2 to the power of k.
fn raised(steps: Steps, k: usize) -> Steps {
    let (words, bits) = (k / 64, k % 64);
    assert!(
        top(&steps).is_none_or(|top| top + k < 64 * WORDS),
        "a product has room"
    );
    let at = |i: usize| i.checked_sub(words).map_or(0, |i| steps[i]);
    std::array::from_fn(|i| match (bits, i) {
        (0, _) => at(i),
        (_, 0) => at(0) << bits,
        _ => at(i) << bits | at(i - 1) >> (64 - bits),
    })
}

/// The whole part of it divided by 2 to the power of k.
fn lowered(steps: Steps, k: usize) -> Steps {
    let (words, bits) = (k / 64, k % 64);
    let at = |i: usize| steps.get(i + words).copied().unwrap_or(0);
    std::array::from_fn(|i| match bits {
        0 => at(i),
        _ => at(i) >> bits | at(i + 1) << (64 - bits),
    })
}

#[cfg(test)]
mod tests {
    use super::*;

    fn exact(value: f64) -> Exact {
        Exact::of(value.to_bits()).expect("a finite number")
    }

    /// Bits that are spread over all of them, one after another.
    fn spread(k: u64) -> u64 {
        let z = k.wrapping_mul(0x9e37_79b9_7f4a_7c15);
        (z ^ z >> 29).wrapping_mul(0xbf58_476d_1ce4_e5b9)
    }

    #[test]
    fn what_the_bits_stand_for() {
        assert_eq!(exact(1.0), Exact::whole(1));
        assert_eq!(exact(-1_048_576.0), Exact::whole(-(1 << 20)));
        assert_eq!(exact(0.375), Exact::part(2).plus(Exact::part(3)));
        assert_eq!(Exact::of(1), Some(Exact::part(1_074)));
        assert_eq!(exact(-0.0), Exact::whole(0));
        for none in [f64::INFINITY, f64::NEG_INFINITY, f64::NAN, -f64::NAN] {
            assert!(!is_finite(none.to_bits()));
        }
        assert!(is_finite(f64::MAX.to_bits()));
    }

    #[test]
    fn of_two_as_near_the_even_one() {
        let one = Exact::whole(1);
        let nearest = |value: Exact| f64::from_bits(value.nearest());
        let step = f64::EPSILON;
        assert_eq!(nearest(one.plus(Exact::part(53))), 1.0);
        assert_eq!(
            nearest(one.plus(Exact::part(53)).plus(Exact::part(1_074))),
            1.0 + step
        );
        let odd = exact(1.0 + step);
        assert_eq!(nearest(odd.plus(Exact::part(53))), 1.0 + 2.0 * step);
        assert_eq!(nearest(odd.minus(Exact::part(53))), 1.0);
        // up to the next power of two
        assert_eq!(nearest(exact(2.0 - step).plus(Exact::part(53))), 2.0);
        // half a step past the greatest is infinity, less than that is the greatest
        let greatest = exact(f64::MAX);
        let half = exact(f64::from_bits((970 + 1_023) << 52));
        assert_eq!(nearest(greatest.plus(half)), f64::INFINITY);
        assert_eq!(
            nearest(greatest.plus(half).minus(Exact::part(1_074))),
            f64::MAX
        );
        assert_eq!(nearest(greatest.negated().minus(half)), f64::NEG_INFINITY);
        // the least that has an exponent, and one step less
        for bits in [1, 2, (1 << 52) - 1, 1 << 52, (1 << 52) + 1] {
            assert_eq!(Exact::of(bits).expect("finite").nearest(), bits);
        }
    }

    /// The machine's sums and differences, of which every one is rounded once, to nearest.
    #[test]
    fn as_the_machine_adds() {
        let near = |k: u64| spread(k) & !(0x7ff << 52) | (990 + spread(k + 7) % 70) << 52;
        let low = |k: u64| spread(k) & !(0x7ff << 52) | (spread(k + 7) % 4) << 52;
        for k in 0..20_000 {
            for of in [spread, near, low] {
                let [a, b] = [of(2 * k), of(2 * k + 1)];
                let (Some(left), Some(right)) = (Exact::of(a), Exact::of(b)) else {
                    continue;
                };
                let [a, b] = [a, b].map(f64::from_bits);
                // a zero has one sign here
                let bits = |value: f64| (value + 0.0).to_bits();
                assert_eq!(left.plus(right).nearest(), bits(a + b), "{a} + {b}");
                assert_eq!(left.minus(right).nearest(), bits(a - b), "{a} - {b}");
            }
        }
    }

    #[test]
    fn halves_go_away_from_zero() {
        let whole = |value: f64| exact(value).nearest_whole();
        for (value, told) in [
            (0.0, 0),
            (0.5, 1),
            (0.5 - f64::EPSILON / 4.0, 0),
            (1.5, 2),
            (2.5, 3),
            (2.499_999_999_999_999_6, 2),
            (1_073_741_823.5, 1 << 30),
            (1_073_741_823.499_999_9, (1 << 30) - 1),
            (4_503_599_627_370_497.0, 4_503_599_627_370_497),
        ] {
            assert_eq!(whole(value), Some(told), "{value}");
            assert_eq!(whole(-value), Some(-told), "-{value}");
        }
        assert_eq!(whole(1e300), None);
        assert_eq!(exact(f64::MAX).doubled(10).nearest_whole(), None);
        assert_eq!(exact(-0.25).doubled(3).nearest_whole(), Some(-2));
    }
}
