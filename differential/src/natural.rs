//! Whole numbers of any size: as much of them as powers take.
use std::cmp::Ordering;

/// Digits to the base 2^64, the least first; the last isn't 0.
#[derive(Clone, PartialEq, Eq)]
pub struct Natural(Vec<u64>);

impl Natural {
    pub fn new(n: u64) -> Self {
        Self(if n == 0 { vec![] } else { vec![n] })
    }

    pub fn times(&self, other: &Self) -> Self {
        let mut digits = vec![0; self.0.len() + other.0.len()];
        for (i, &a) in self.0.iter().enumerate() {
            let mut carry = 0;
            for (j, &b) in other.0.iter().enumerate() {
                let sum = u128::from(digits[i + j]) + u128::from(a) * u128::from(b) + carry;
                digits[i + j] = sum as u64;
                carry = sum >> 64;
            }
            digits[i + other.0.len()] = carry as u64;
        }
        while digits.last() == Some(&0) {
            digits.pop();
        }
        Self(digits)
    }

    pub fn power(&self, exponent: u32) -> Self {
        (0..32).rev().fold(Self::new(1), |power, bit| {
            let square = power.times(&power);
            if exponent >> bit & 1 == 1 {
                square.times(self)
            } else {
                square
            }
        })
    }
}

impl Ord for Natural {
    fn cmp(&self, other: &Self) -> Ordering {
        self.0.len().cmp(&other.0.len()).then_with(|| self.0.iter().rev().cmp(other.0.iter().rev()))
    }
}

impl PartialOrd for Natural {
    fn partial_cmp(&self, other: &Self) -> Option<Ordering> {
        Some(self.cmp(other))
    }
}
