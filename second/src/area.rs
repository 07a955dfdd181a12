//! Twice the area of walks, exactly: a sum of fractions, one for each step of a walk.
//!
//! Fractions with one bottom are added as they come, so that a step and its way back leave
//! nothing. Two areas are compared by bringing all fractions of both to one bottom, in numbers of
//! any size. Nothing is cut off and nothing is rounded.

use crate::natural::Natural;
use crate::point::Point;
use std::cmp::Ordering;
use std::collections::BTreeMap;
use std::iter::Sum;
use std::ops::{Add, Neg, Sub};

/// The sum of `tops[bottom]` / `bottom` over all bottoms. No top is 0.
///
/// With coordinates up to 16,000 a bottom is at most 2,048,000,000 squared (2^61.9). The top of a
/// step has 91 bits, and 2^36 steps would still fit 127; a sheet has at most a few thousand.
#[derive(Clone, Debug, Default)]
pub struct Area {
    tops: BTreeMap<u64, i128>,
}

/// Fractions over one bottom, those above 0 and those below 0 apart: `above` / `bottom` -
/// `below` / `bottom`.
struct Total {
    above: Natural,
    below: Natural,
    bottom: Natural,
}

impl Area {
    /// The fraction top / bottom, with bottom above 0.
    pub fn fraction(top: i128, bottom: u64) -> Area {
        let tops = if top == 0 { BTreeMap::new() } else { BTreeMap::from([(bottom, top)]) };
        Area { tops }
    }

    /// Twice the area of the triangle from the origin over a to b.
    pub fn step(a: &Point, b: &Point) -> Area {
        let top = a.x as i128 * b.y as i128 - b.x as i128 * a.y as i128;
        Area::fraction(top, a.d as u64 * b.d as u64)
    }

    /// 1 above 0, 0 if it is 0, -1 below.
    pub fn sign(&self) -> i32 {
        let fractions: Vec<(u64, i128)> = self.tops.iter().map(|(&b, &t)| (b, t)).collect();
        let total = total(&fractions);
        total.above.cmp(&total.below) as i32
    }

    fn add_all(mut self, other: &Area, sign: i128) -> Area {
        for (&bottom, &top) in &other.tops {
            let here = self.tops.entry(bottom).or_insert(0);
            *here += sign * top;
            if *here == 0 {
                self.tops.remove(&bottom);
            }
        }
        self
    }
}

/// All fractions over the product of their bottoms: first one half, then the other, then both by
/// multiplying across.
fn total(fractions: &[(u64, i128)]) -> Total {
    match fractions {
        [] => Total { above: 0.into(), below: 0.into(), bottom: 1.into() },
        [(bottom, top)] => {
            let size = Natural::from(top.unsigned_abs());
            let (above, below) =
                if *top > 0 { (size, Natural::default()) } else { (Natural::default(), size) };
            Total { above, below, bottom: (*bottom as u128).into() }
        }
        _ => {
            let (first, second) = fractions.split_at(fractions.len() / 2);
            let (a, b) = (total(first), total(second));
            let across = |s: &Natural, t: &Natural| s.times(&b.bottom).plus(&t.times(&a.bottom));
            Total {
                above: across(&a.above, &b.above),
                below: across(&a.below, &b.below),
                bottom: a.bottom.times(&b.bottom),
            }
        }
    }
}

impl Ord for Area {
    fn cmp(&self, other: &Area) -> Ordering {
        self.clone().add_all(other, -1).sign().cmp(&0)
    }
}

impl PartialOrd for Area {
    fn partial_cmp(&self, other: &Area) -> Option<Ordering> {
        Some(self.cmp(other))
    }
}

/// Equal in size, however it is written.
impl PartialEq for Area {
    fn eq(&self, other: &Area) -> bool {
        self.cmp(other) == Ordering::Equal
    }
}

impl Eq for Area {}

impl Neg for Area {
    type Output = Area;

    fn neg(self) -> Area {
        Area::default().add_all(&self, -1)
    }
}

impl Add for Area {
    type Output = Area;

    fn add(self, other: Area) -> Area {
        self.add_all(&other, 1)
    }
}

impl Sub for Area {
    type Output = Area;

    fn sub(self, other: Area) -> Area {
        self.add_all(&other, -1)
    }
}

impl Sum for Area {
    fn sum<I: Iterator<Item = Area>>(steps: I) -> Area {
        steps.fold(Area::default(), Area::add)
    }
}
