//! Whole numbers from 0 on, of any size: sums, products and their order, as on paper.

use std::cmp::Ordering;

/// Digits of 64 bits, the lowest first; the last is not 0, and 0 has none.
#[derive(Clone, PartialEq, Eq, Debug, Default)]
pub struct Natural {
    digits: Vec<u64>,
}

impl Natural {
    fn trimmed(mut digits: Vec<u64>) -> Natural {
        while digits.last() == Some(&0) {
            digits.pop();
        }
        Natural { digits }
    }

    fn is_one(&self) -> bool {
        self.digits == [1]
    }

    /// A digit at a time, with the carry.
    pub fn plus(&self, other: &Natural) -> Natural {
        let at = |n: &Natural, i: usize| n.digits.get(i).copied().unwrap_or(0) as u128;
        let longest = self.digits.len().max(other.digits.len());
        let mut sum = Vec::with_capacity(longest + 1);
        let mut carry = 0;
        for i in 0..longest {
            let total = at(self, i) + at(other, i) + carry;
            sum.push(total as u64);
            carry = total >> 64;
        }
        sum.push(carry as u64);
        Natural::trimmed(sum)
    }

    /// Each digit by each: a product, what stands there already and a carry are below 2^128.
    pub fn times(&self, other: &Natural) -> Natural {
        if self.is_one() {
            return other.clone();
        }
        if other.is_one() {
            return self.clone();
        }
        let mut product = vec![0u64; self.digits.len() + other.digits.len()];
        for (i, &a) in self.digits.iter().enumerate() {
            let mut carry = 0;
            for (j, &b) in other.digits.iter().enumerate() {
                let total = a as u128 * b as u128 + product[i + j] as u128 + carry;
                product[i + j] = total as u64;
                carry = total >> 64;
            }
            product[i + other.digits.len()] = carry as u64;
        }
        Natural::trimmed(product)
    }
}

impl From<u128> for Natural {
    fn from(number: u128) -> Natural {
        Natural::trimmed(vec![number as u64, (number >> 64) as u64])
    }
}

/// The longer is the greater; of two as long the first digit from the top that differs decides.
impl Ord for Natural {
    fn cmp(&self, other: &Natural) -> Ordering {
        let lengths = self.digits.len().cmp(&other.digits.len());
        lengths.then_with(|| self.digits.iter().rev().cmp(other.digits.iter().rev()))
    }
}

impl PartialOrd for Natural {
    fn partial_cmp(&self, other: &Natural) -> Option<Ordering> {
        Some(self.cmp(other))
    }
}
