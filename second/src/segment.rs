//! Straight edges between whole points, and what two of them have in common.
//!
//! With coordinates up to 16,000 a direction is at most 32,000, the c of a line at most
//! 1,024,000,000 (30 bits), and the top and bottom of a crossing have 46 and 31 bits; a box at its
//! bottom has 45. All fit 64 bits.

use crate::point::Point;

/// An edge from (ax, ay) to (bx, by), which are different points.
#[derive(Clone, Copy, PartialEq, Eq, Debug)]
pub struct Segment {
    pub ax: i64,
    pub ay: i64,
    pub bx: i64,
    pub by: i64,
}

/// The set of points that two edges have in common.
#[derive(Clone, Copy, PartialEq, Eq, Debug)]
pub enum Shared {
    Nothing,
    At(Point),
    Stretch(Point, Point),
}

impl Segment {
    pub fn new(a: (i64, i64), b: (i64, i64)) -> Segment {
        Segment { ax: a.0, ay: a.1, bx: b.0, by: b.1 }
    }

    /// From the first end to the second.
    pub fn way(&self) -> (i64, i64) {
        (self.bx - self.ax, self.by - self.ay)
    }

    /// Its two ends.
    pub fn ends(&self) -> [Point; 2] {
        [Point::whole(self.ax, self.ay), Point::whole(self.bx, self.by)]
    }

    /// The line a x + b y = c through the edge.
    fn line(&self) -> (i64, i64, i64) {
        let (dx, dy) = self.way();
        (dy, -dx, dy * self.ax - dx * self.ay)
    }

    /// Does a point (x / d, y / d) with d > 0 lie in the box around the edge?
    fn boxes(&self, x: i64, y: i64, d: i64) -> bool {
        let within = |v: i64, s: i64, t: i64| s.min(t) * d <= v && v <= s.max(t) * d;
        within(x, self.ax, self.bx) && within(y, self.ay, self.by)
    }

    /// Do the boxes of two edges lie apart?
    fn apart(&self, other: &Segment) -> bool {
        self.ax.max(self.bx) < other.ax.min(other.bx)
            || other.ax.max(other.bx) < self.ax.min(self.bx)
            || self.ay.max(self.by) < other.ay.min(other.by)
            || other.ay.max(other.by) < self.ay.min(self.by)
    }
}

/// What two edges have in common. The crossing of two lines is taken from their equations;
/// a point of a line lies on the edge if it lies in the edge's box.
pub fn shared(s: &Segment, t: &Segment) -> Shared {
    if s.apart(t) {
        return Shared::Nothing;
    }
    let (a1, b1, c1) = s.line();
    let (a2, b2, c2) = t.line();
    let bottom = a1 * b2 - a2 * b1;
    if bottom == 0 {
        let (dx, dy) = s.way();
        let on_one_line = dx * (t.ay - s.ay) == dy * (t.ax - s.ax);
        return if on_one_line { along(s, t) } else { Shared::Nothing };
    }
    let sign = bottom.signum();
    let x = (c1 * b2 - c2 * b1) * sign;
    let y = (a1 * c2 - a2 * c1) * sign;
    let d = bottom * sign;
    if s.boxes(x, y, d) && t.boxes(x, y, d) {
        Shared::At(Point::lowest(x, y, d))
    } else {
        Shared::Nothing
    }
}

/// What two edges on one line have in common: from the greater of their lower ends to the
/// smaller of their upper ends, if there is anything between.
fn along(s: &Segment, t: &Segment) -> Shared {
    let [s1, s2] = s.ends();
    let [t1, t2] = t.ends();
    let low = s1.min(s2).max(t1.min(t2));
    let high = s1.max(s2).min(t1.max(t2));
    match low.cmp(&high) {
        std::cmp::Ordering::Less => Shared::Stretch(low, high),
        std::cmp::Ordering::Equal => Shared::At(low),
        std::cmp::Ordering::Greater => Shared::Nothing,
    }
}

/// Do two edges of one map share a point that is not an end of both?
pub fn clash(s: &Segment, t: &Segment) -> bool {
    match shared(s, t) {
        Shared::Nothing => false,
        Shared::At(p) => !(s.ends().contains(&p) && t.ends().contains(&p)),
        Shared::Stretch(..) => true,
    }
}
