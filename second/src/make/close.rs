//! Pairs with crossings that all but coincide: their heights differ by about 1 / (D1 D2).

use super::drawing::{Drawing, Place};
use crate::limits::REACH;
use crate::point::common;
use crate::random::Random;

/// The place (x, y) with u y - v x = 1, by Euclid's way; u and v have no common divisor.
fn next_to((u, v): Place) -> Place {
    fn sum_of(a: i64, b: i64) -> (i64, i64, i64) {
        if b == 0 {
            return (a, 1, 0);
        }
        let (divisor, p, q) = sum_of(b, a % b);
        (divisor, q, p - a / b * q)
    }
    let (divisor, p, q) = sum_of(u, v);
    (-q * divisor, p * divisor)
}

/// A whole direction with no common divisor, up to so far each way.
fn direction(random: &mut Random, reach: i64) -> Place {
    loop {
        let (x, y) = (random.range(-reach, reach), random.range(-reach, reach));
        if common(x, y) == 1 {
            return (x, y);
        }
    }
}

/// Edges from a place right beside the edge from a along `way` to its other side. Neighbours have
/// directions whose cross product is 1 or -1.
fn fan(drawing: &mut Drawing, random: &mut Random, a: Place, way: Place, reach: i64) {
    let (u, v) = way;
    let (x, y) = next_to(way);
    let (x, y) = if x < 0 { (x + u, y + v) } else { (x, y) };
    let left = random.once_in(2);
    let foot = if left { (a.0 + x, a.1 + y) } else { (a.0 + u - x, a.1 + v - y) };
    let some = random.pick(&[1, 2, 9, reach / 9]).max(1);
    let (mut s, mut t) = direction(random, some);
    if (u * t - v * s > 0) == left {
        (s, t) = (-s, -t);
    }
    let (p, q) = next_to((s, t));
    let mut edges = random.range(2, 8);
    for k in (0..=2 * reach).rev() {
        if edges > 0 && drawing.join(foot, (foot.0 + p + k * s, foot.1 + q + k * t)) {
            edges -= 1;
        }
    }
}

/// Long edges of one map, and in the other fans that begin right beside them.
pub fn close(random: &mut Random) -> [Drawing; 2] {
    let reach = random.pick(&[40, 2_000, REACH, REACH]);
    let mut drawings = [Drawing::new(), Drawing::new()];
    let [long, fans] = &mut drawings;
    let mut ways = Vec::new();
    while ways.len() < 1 + random.below(2) {
        let a = (-reach, random.range(-reach, reach));
        let steep = random.pick(&[1, 9, reach]);
        let b = (reach, (a.1 + random.range(-steep, steep)).clamp(-reach, reach));
        let way = (b.0 - a.0, b.1 - a.1);
        if common(way.0, way.1) == 1 && long.join(a, b) {
            ways.push((a, way));
        }
    }
    for _ in 0..random.range(1, 4) {
        let (a, way) = random.pick(&ways);
        fan(fans, random, a, way, reach);
    }
    while fans.edges() == 0 {
        fans.join((0, random.range(-reach, reach)), (1, random.range(-reach, reach)));
    }
    drawings
}
