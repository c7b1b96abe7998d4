//! Whole numbers of any size and sign, and fractions of them.

use crate::natural::Natural;
use crate::split::Number;
use std::cmp::Ordering;

/// Zero is never negative.
#[derive(Clone, Debug, Default, PartialEq, Eq)]
pub struct Integer {
    negative: bool,
    size: Natural,
}

impl Integer {
    fn new(negative: bool, size: Natural) -> Integer {
        Integer { negative: negative && !size.is_zero(), size }
    }

    pub fn from_i128(value: i128) -> Integer {
        Integer::new(value < 0, Natural::from_u128(value.unsigned_abs()))
    }

    pub fn times(&self, factor: &Natural) -> Integer {
        Integer::new(self.negative, self.size.times(factor))
    }

    pub fn minus(&self, other: &Integer) -> Integer {
        let mut difference = Integer::new(!other.negative, other.size.clone());
        difference.add(self);
        difference
    }

    pub fn is_negative(&self) -> bool {
        self.negative
    }

    pub fn is_zero(&self) -> bool {
        self.size.is_zero()
    }
}

impl Number for Integer {
    fn zero() -> Integer {
        Integer::default()
    }

    fn add(&mut self, other: &Integer) {
        *self = if self.negative == other.negative {
            Integer::new(self.negative, self.size.plus(&other.size))
        } else if self.size >= other.size {
            Integer::new(self.negative, self.size.minus(&other.size))
        } else {
            Integer::new(other.negative, other.size.minus(&self.size))
        };
    }

    fn scaled(&self, factor: u32) -> Integer {
        self.times(&Natural::from_u128(u128::from(factor)))
    }
}

impl Ord for Integer {
    fn cmp(&self, other: &Integer) -> Ordering {
        match (self.negative, other.negative) {
            (false, false) => self.size.cmp(&other.size),
            (true, true) => other.size.cmp(&self.size),
            (true, false) => Ordering::Less,
            (false, true) => Ordering::Greater,
        }
    }
}

impl PartialOrd for Integer {
    fn partial_cmp(&self, other: &Integer) -> Option<Ordering> {
        Some(self.cmp(other))
    }
}

/// A whole numerator over a whole divisor above 0, not necessarily in lowest terms.
#[derive(Clone, Debug)]
pub struct Fraction {
    pub numerator: Integer,
    pub divisor: Natural,
}

impl Fraction {
    pub fn whole(value: i128) -> Fraction {
        Fraction { numerator: Integer::from_i128(value), divisor: Natural::from_u128(1) }
    }

    pub fn new(numerator: i128, divisor: u128) -> Fraction {
        assert!(divisor > 0, "a divisor is above 0");
        Fraction { numerator: Integer::from_i128(numerator), divisor: Natural::from_u128(divisor) }
    }

    pub fn minus(&self, other: &Fraction) -> Fraction {
        let left = self.numerator.times(&other.divisor);
        let right = other.numerator.times(&self.divisor);
        Fraction { numerator: left.minus(&right), divisor: self.divisor.times(&other.divisor) }
    }
}

/// Compared by cross-multiplying (rule 4.4).
impl PartialEq for Fraction {
    fn eq(&self, other: &Fraction) -> bool {
        self.partial_cmp(other) == Some(Ordering::Equal)
    }
}

impl PartialOrd for Fraction {
    fn partial_cmp(&self, other: &Fraction) -> Option<Ordering> {
        Some(self.numerator.times(&other.divisor).cmp(&other.numerator.times(&self.divisor)))
    }
}

#[cfg(test)]
mod tests {
    use super::*;
    use crate::random::Random;

    #[test]
    fn agrees_with_whole_numbers_of_the_machine() {
        let mut random = Random::new(2);
        let mut draw = || i128::from(random.bits() as i64) >> random.below(63);
        for _ in 0..2000 {
            let (a, b) = (draw(), draw());
            let mut sum = Integer::from_i128(a);
            sum.add(&Integer::from_i128(b));
            assert_eq!(sum, Integer::from_i128(a + b));
            assert_eq!(Integer::from_i128(a).minus(&Integer::from_i128(b)), Integer::from_i128(a - b));
            assert_eq!(Integer::from_i128(a).cmp(&Integer::from_i128(b)), a.cmp(&b));
        }
    }

    #[test]
    fn fractions_need_no_lowest_terms() {
        assert_eq!(Fraction::new(10, 4), Fraction::new(5, 2));
        assert!(Fraction::new(-5, 2) < Fraction::whole(-2));
        assert_eq!(Fraction::new(1, 3).minus(&Fraction::new(1, 2)), Fraction::new(-2, 12));
    }
}
