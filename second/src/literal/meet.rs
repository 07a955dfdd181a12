//! How two edges meet, by parameters: edge p to p+u and edge q to q+v.

use crate::meet::Meeting;
use crate::point::Point;
use crate::segment::Segment;

/// "apart, touching at an end of either, crossing inside both, or sharing a stretch, with the
/// point where there is one". Where u1·v2 − u2·v1 is not 0, both parameters are to lie from 0 to
/// 1, and at 0 and at 1 is an end. Otherwise the parameters of the second edge's ends along the
/// first are held to 0 and 1.
pub fn meeting(s: &Segment, t: &Segment) -> Meeting {
    let (u, v) = (s.way(), t.way());
    let off = (t.ax - s.ax, t.ay - s.ay);
    let cross = |a: (i64, i64), b: (i64, i64)| a.0 * b.1 - a.1 * b.0;
    let bottom = cross(u, v);
    if bottom == 0 {
        return if cross(u, off) == 0 { in_line(s, t) } else { Meeting::Apart };
    }
    let sign = bottom.signum();
    let (first, second) = (cross(off, v) * sign, cross(off, u) * sign);
    let one = bottom * sign;
    if first < 0 || first > one || second < 0 || second > one {
        return Meeting::Apart;
    }
    let at = Point::lowest(s.ax * one + first * u.0, s.ay * one + first * u.1, one);
    let ends = [0, one];
    if ends.contains(&first) || ends.contains(&second) {
        Meeting::Touching(at)
    } else {
        Meeting::Crossing(at)
    }
}

/// Edges in one line: the parameters of the second's ends along the first, times its length
/// squared.
fn in_line(s: &Segment, t: &Segment) -> Meeting {
    let u = s.way();
    let along = |x: i64, y: i64| (x - s.ax) * u.0 + (y - s.ay) * u.1;
    let (one, c, d) = (along(s.bx, s.by), along(t.ax, t.ay), along(t.bx, t.by));
    let (low, high) = (c.min(d).max(0), c.max(d).min(one));
    match high - low {
        0 if low == 0 => Meeting::Touching(Point::whole(s.ax, s.ay)),
        0 => Meeting::Touching(Point::whole(s.bx, s.by)),
        1.. => Meeting::Sharing,
        _ => Meeting::Apart,
    }
}
