//! Whole numbers from 0 up, of any size: 32 binary digits in each place, the lowest place first.

use std::cmp::Ordering;

/// No zero stands in the highest place, so equal numbers have equal digits.
#[derive(Clone, Debug, Default, PartialEq, Eq)]
pub struct Natural {
    digits: Vec<u32>,
}

impl Natural {
    pub fn from_u128(value: u128) -> Natural {
        let digits = (0..4).map(|place| (value >> (32 * place)) as u32).collect();
        Natural { digits }.trimmed()
    }

    pub fn is_zero(&self) -> bool {
        self.digits.is_empty()
    }

    fn trimmed(mut self) -> Natural {
        while self.digits.last() == Some(&0) {
            self.digits.pop();
        }
        self
    }

    pub fn plus(&self, other: &Natural) -> Natural {
        let (long, short) = if self.digits.len() < other.digits.len() { (other, self) } else { (self, other) };
        let mut digits = Vec::with_capacity(long.digits.len() + 1);
        let mut carry = 0;
        for (place, &digit) in long.digits.iter().enumerate() {
            let sum = u64::from(digit) + u64::from(*short.digits.get(place).unwrap_or(&0)) + carry;
            digits.push(sum as u32);
            carry = sum >> 32;
        }
        digits.push(carry as u32);
        Natural { digits }.trimmed()
    }

    /// The difference; the other number must not be greater.
    pub fn minus(&self, other: &Natural) -> Natural {
        assert!(other <= self, "the difference would be below zero");
        let mut digits = Vec::with_capacity(self.digits.len());
        let mut borrow = 0;
        for (place, &digit) in self.digits.iter().enumerate() {
            let difference = i64::from(digit) - i64::from(*other.digits.get(place).unwrap_or(&0)) - borrow;
            digits.push(difference as u32);
            borrow = i64::from(difference < 0);
        }
        Natural { digits }.trimmed()
    }

    pub fn times(&self, other: &Natural) -> Natural {
        let mut digits = vec![0u32; self.digits.len() + other.digits.len()];
        for (i, &a) in self.digits.iter().enumerate() {
            let mut carry = 0;
            for (j, &b) in other.digits.iter().enumerate() {
                let sum = u64::from(a) * u64::from(b) + u64::from(digits[i + j]) + carry;
                digits[i + j] = sum as u32;
                carry = sum >> 32;
            }
            digits[i + other.digits.len()] = carry as u32;
        }
        Natural { digits }.trimmed()
    }
}

impl Ord for Natural {
    fn cmp(&self, other: &Natural) -> Ordering {
        let by_length = self.digits.len().cmp(&other.digits.len());
        by_length.then_with(|| self.digits.iter().rev().cmp(other.digits.iter().rev()))
    }
}

impl PartialOrd for Natural {
    fn partial_cmp(&self, other: &Natural) -> Option<Ordering> {
        Some(self.cmp(other))
    }
}

#[cfg(test)]
mod tests {
    use super::*;
    use crate::random::Random;

    fn natural(value: u128) -> Natural {
        Natural::from_u128(value)
    }

    #[test]
    fn agrees_with_whole_numbers_of_the_machine() {
        let mut random = Random::new(1);
        for _ in 0..2000 {
            let a = u128::from(random.bits()) >> random.below(64);
            let b = u128::from(random.bits()) >> random.below(64);
            assert_eq!(natural(a).plus(&natural(b)), natural(a + b));
            assert_eq!(natural(a).times(&natural(b)), natural(a * b));
            assert_eq!(natural(a.max(b)).minus(&natural(a.min(b))), natural(a.max(b) - a.min(b)));
            assert_eq!(natural(a).cmp(&natural(b)), a.cmp(&b));
        }
    }

    #[test]
    fn carries_run_through_all_places() {
        let ones = natural(u128::MAX);
        let next = ones.plus(&natural(1));
        assert_eq!(next.minus(&natural(1)), ones);
        assert_eq!(next.digits, [0, 0, 0, 0, 1]);
        assert_eq!(ones.times(&ones).plus(&ones).plus(&ones).plus(&natural(1)), next.times(&next));
    }
}
