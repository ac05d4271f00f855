//! Whole numbers of any size.

use std::cmp::Ordering;

/// A whole number, its lowest 64 bits first and no zero last.
#[derive(Clone, Debug, PartialEq, Eq)]
pub struct Natural(Vec<u64>);

impl Natural {
    pub fn new(value: u128) -> Natural {
        Natural::trimmed(vec![value as u64, (value >> 64) as u64])
    }

    fn trimmed(mut parts: Vec<u64>) -> Natural {
        while parts.last() == Some(&0) {
            parts.pop();
        }
        Natural(parts)
    }

    pub fn power(base: u64, exponent: u64) -> Natural {
        (0..exponent).fold(Natural::new(1), |power, _| power.times(base))
    }

    pub fn times(&self, factor: u64) -> Natural {
        let mut parts = Vec::with_capacity(self.0.len() + 1);
        let mut carry = 0;
        for &part in &self.0 {
            let sum = u128::from(part) * u128::from(factor) + carry;
            parts.push(sum as u64);
            carry = sum >> 64;
        }
        parts.push(carry as u64);
        Natural::trimmed(parts)
    }

    pub fn plus(&self, other: &Natural) -> Natural {
        let length = self.0.len().max(other.0.len());
        let mut parts = Vec::with_capacity(length + 1);
        let mut carry = 0;
        for place in 0..length {
            let part = |number: &Natural| u128::from(number.0.get(place).copied().unwrap_or(0));
            let sum = part(self) + part(other) + carry;
            parts.push(sum as u64);
            carry = sum >> 64;
        }
        parts.push(carry as u64);
        Natural::trimmed(parts)
    }

    pub fn product(&self, other: &Natural) -> Natural {
        let mut parts = vec![0; self.0.len() + other.0.len()];
        for (start, &factor) in other.0.iter().enumerate() {
            let mut carry = 0;
            for (place, &part) in self.0.iter().enumerate() {
                let sum = u128::from(part) * u128::from(factor);
                let sum = sum + u128::from(parts[start + place]) + carry;
                parts[start + place] = sum as u64;
                carry = sum >> 64;
            }
            parts[start + self.0.len()] = carry as u64;
        }
        Natural::trimmed(parts)
    }

    pub fn square(&self) -> Natural {
        self.product(self)
    }
}

impl Ord for Natural {
    fn cmp(&self, other: &Natural) -> Ordering {
        let lengths = self.0.len().cmp(&other.0.len());
        lengths.then_with(|| self.0.iter().rev().cmp(other.0.iter().rev()))
    }
}

impl PartialOrd for Natural {
    fn partial_cmp(&self, other: &Natural) -> Option<Ordering> {
        Some(self.cmp(other))
    }
}
