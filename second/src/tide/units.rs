//! Floats of 64 bits as whole numbers of units of 2^-1074. Every finite float is one, and so is
//! every exact product of a float and a whole number and every exact sum: a result is reckoned
//! exactly, and then rounded once.

use std::cmp::Ordering;

/// 64-bit words of a number of units: the greatest float has 2,098 bits.
const WORDS: usize = 34;
/// Units of 1 are 2^ONE.
pub const ONE: usize = 1074;
/// Digits that a float holds.
const DIGITS: usize = 53;

/// A number of units, not negative; the lowest word first.
#[derive(Clone, Copy, PartialEq, Eq, Debug)]
pub struct Units([u64; WORDS]);

impl Units {
    pub const NONE: Units = Units([0; WORDS]);

    /// m times 2^shift units.
    pub fn shifted(m: u64, shift: usize) -> Units {
        let mut out = Units::NONE;
        let wide = (m as u128) << (shift % 64);
        out.0[shift / 64] = wide as u64;
        out.0[shift / 64 + 1] = (wide >> 64) as u64;
        out
    }

    pub fn is_none(&self) -> bool {
        *self == Units::NONE
    }

    /// The product with a whole number.
    pub fn times(&self, factor: u64) -> Units {
        let (mut out, mut carry) = (Units::NONE, 0u128);
        for i in 0..WORDS {
            carry += self.0[i] as u128 * factor as u128;
            out.0[i] = carry as u64;
            carry >>= 64;
        }
        assert!(carry == 0, "a product of this size is never made");
        out
    }

    pub fn plus(&self, other: &Units) -> Units {
        let (mut out, mut carry) = (Units::NONE, 0u128);
        for i in 0..WORDS {
            carry += self.0[i] as u128 + other.0[i] as u128;
            out.0[i] = carry as u64;
            carry >>= 64;
        }
        assert!(carry == 0, "a sum of this size is never made");
        out
    }

    /// The difference; other must not be greater.
    pub fn minus(&self, other: &Units) -> Units {
        let (mut out, mut borrow) = (Units::NONE, 0i128);
        for i in 0..WORDS {
            borrow += self.0[i] as i128 - other.0[i] as i128;
            out.0[i] = borrow as u64;
            borrow >>= 64;
        }
        assert!(borrow == 0, "the smaller is taken from the greater");
        out
    }

    fn bit(&self, i: usize) -> bool {
        self.0[i / 64] >> (i % 64) & 1 == 1
    }

    /// The number of digits, 0 for none.
    fn length(&self) -> usize {
        (0..64 * WORDS).rev().find(|&i| self.bit(i)).map_or(0, |i| i + 1)
    }

    /// What is left without the lowest digits; it must fit 64 bits.
    fn above(&self, low: usize) -> u64 {
        (low..self.length()).filter(|&i| self.bit(i)).map(|i| 1 << (i - low)).sum()
    }

    /// Rounded to what a float holds: to the nearest, and of two as near to the even one.
    pub fn rounded(&self) -> Units {
        let low = self.length().saturating_sub(DIGITS);
        if low == 0 {
            return *self;
        }
        let kept = self.above(low);
        let rest = self.minus(&Units::shifted(kept, low));
        let up = match rest.cmp(&Units::shifted(1, low - 1)) {
            Ordering::Greater => 1,
            Ordering::Equal => kept % 2,
            Ordering::Less => 0,
        };
        Units::shifted(kept + up, low)
    }

    /// The nearest whole number of ones, a half up; it must fit 64 bits.
    pub fn ones(&self) -> u64 {
        self.plus(&Units::shifted(1, ONE - 1)).above(ONE)
    }

    /// The pattern of the float that is this many units, which it must hold exactly.
    pub fn pattern(&self) -> u64 {
        let low = self.length().saturating_sub(DIGITS);
        let digits = self.above(low);
        assert!(*self == Units::shifted(digits, low), "a rounded number is a float");
        let lead = 1 << (DIGITS - 1);
        if digits < lead {
            digits
        } else {
            (low as u64 + 1) * lead + (digits - lead)
        }
    }
}

impl PartialOrd for Units {
    fn partial_cmp(&self, other: &Units) -> Option<Ordering> {
        Some(self.cmp(other))
    }
}

impl Ord for Units {
    fn cmp(&self, other: &Units) -> Ordering {
        self.0.iter().rev().cmp(other.0.iter().rev())
    }
}

/// A finite float: its sign and its units.
#[derive(Clone, Copy, PartialEq, Eq, Debug)]
pub struct Finite {
    pub negative: bool,
    pub units: Units,
}

impl Finite {
    /// The float of a pattern, unless it is a NaN or an infinity.
    pub fn of_pattern(pattern: u64) -> Option<Finite> {
        let (field, digits) = (pattern >> 52 & 2047, pattern & ((1 << 52) - 1));
        let units = match field {
            2047 => return None,
            0 => Units::shifted(digits, 0),
            _ => Units::shifted(digits | 1 << 52, field as usize - 1),
        };
        Some(Finite { negative: pattern >> 63 == 1, units })
    }

    pub fn pattern(&self) -> u64 {
        (self.negative as u64) << 63 | self.units.pattern()
    }

    /// The product with a whole number, rounded once. A product of 0 has the sign that the two
    /// signs give.
    pub fn times(&self, factor: i32) -> Finite {
        let units = self.units.times(factor.unsigned_abs() as u64).rounded();
        Finite { negative: self.negative != (factor < 0), units }
    }

    /// The sum, rounded once. A sum of 0 is -0 only where both are.
    pub fn plus(&self, other: &Finite) -> Finite {
        let (negative, units) = if self.negative == other.negative {
            (self.negative, self.units.plus(&other.units))
        } else {
            match self.units.cmp(&other.units) {
                Ordering::Greater => (self.negative, self.units.minus(&other.units)),
                Ordering::Less => (other.negative, other.units.minus(&self.units)),
                Ordering::Equal => (false, Units::NONE),
            }
        };
        Finite { negative, units: units.rounded() }
    }

    /// The nearest whole number, halves away from zero.
    pub fn nearest(&self) -> i64 {
        let ones = self.units.ones() as i64;
        if self.negative {
            -ones
        } else {
            ones
        }
    }
}
