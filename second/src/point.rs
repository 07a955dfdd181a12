//! Points with fractional coordinates: the common form, the order, the side.
//!
//! Of an overlay vertex with coordinates up to 16,000 D is at most 2,048,000,000 (31 bits), X and
//! Y at most 32,768,000,000,000 (45 bits).

use std::cmp::Ordering;

/// The point (x / d, y / d). Made by [`Point::whole`] or [`Point::lowest`] it has d > 0 and
/// the greatest common divisor of the three is 1, so that equal points are equal records.
#[derive(Clone, Copy, PartialEq, Eq, Hash, Debug)]
pub struct Point {
    pub x: i64,
    pub y: i64,
    pub d: i64,
}

impl Point {
    /// A point with whole coordinates.
    pub fn whole(x: i64, y: i64) -> Point {
        Point { x, y, d: 1 }
    }

    /// The point (x / d, y / d) for any d other than 0.
    pub fn lowest(x: i64, y: i64, d: i64) -> Point {
        let g = common(common(x, y), d) * d.signum();
        Point { x: x / g, y: y / g, d: d / g }
    }
}

/// The greatest common divisor, never negative. Halves and subtracts instead of dividing.
pub fn common(a: i64, b: i64) -> i64 {
    let (mut a, mut b) = (a.unsigned_abs(), b.unsigned_abs());
    if a == 0 || b == 0 {
        return (a | b) as i64;
    }
    let twos = (a | b).trailing_zeros();
    a >>= a.trailing_zeros();
    while b != 0 {
        b >>= b.trailing_zeros();
        if a > b {
            std::mem::swap(&mut a, &mut b);
        }
        b -= a;
    }
    (a << twos) as i64
}

/// Point order: smaller y first, then smaller x. The products have 76 bits.
impl Ord for Point {
    fn cmp(&self, other: &Point) -> Ordering {
        let across = |a: i64, b: i64| a as i128 * b as i128;
        let rows = across(self.y, other.d).cmp(&across(other.y, self.d));
        rows.then_with(|| across(self.x, other.d).cmp(&across(other.x, self.d)))
    }
}

impl PartialOrd for Point {
    fn partial_cmp(&self, other: &Point) -> Option<Ordering> {
        Some(self.cmp(other))
    }
}

/// Is a west of b (smaller x)?
pub fn is_west(a: &Point, b: &Point) -> bool {
    (a.x as i128) * (b.d as i128) < (b.x as i128) * (a.d as i128)
}

/// The side of p against the line from a to b: 1 left, 0 on it, -1 right. It is the sign of
/// the determinant with the rows (X, Y, D) of the three points: six products of an X, a Y and
/// a D, each below 2^121, together below 2^124.
pub fn side(a: &Point, b: &Point, p: &Point) -> i32 {
    let minor = |s: &Point, t: &Point| {
        (
            s.y as i128 * t.d as i128 - s.d as i128 * t.y as i128,
            s.d as i128 * t.x as i128 - s.x as i128 * t.d as i128,
            s.x as i128 * t.y as i128 - s.y as i128 * t.x as i128,
        )
    };
    let (mx, my, md) = minor(a, b);
    (mx * p.x as i128 + my * p.y as i128 + md * p.d as i128).signum() as i32
}
