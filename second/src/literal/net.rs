//! Followers, walks, hole walks and looking west, as document 01 says them.

use super::slip::Slip;
use crate::map::Map;
use crate::point::Point;
use std::cmp::Ordering;

/// Vertices, and edges on the whole lines that carry them. Half-edge 2k runs from the first
/// end of edge k to its second, in the direction `ways[k]`; `bases[k]` is a place on its line.
pub struct Net {
    pub points: Vec<Point>,
    pub ends: Vec<(usize, usize)>,
    pub bases: Vec<(i64, i64)>,
    pub ways: Vec<(i64, i64)>,
    pub slip: Option<Slip>,
}

impl Net {
    /// A map as it stands.
    pub fn of(map: &Map, slip: Option<Slip>) -> Net {
        let whole = |&(x, y): &(i16, i16)| Point::whole(x as i64, y as i64);
        Net {
            points: map.vertices.iter().map(whole).collect(),
            ends: map.edges.iter().map(|e| (e.from as usize, e.to as usize)).collect(),
            bases: map.edges.iter().map(|e| map.place(e.from)).collect(),
            ways: map.segments().iter().map(|s| s.way()).collect(),
            slip,
        }
    }

    pub fn half_edges(&self) -> usize {
        2 * self.ends.len()
    }

    pub fn origin(&self, h: usize) -> usize {
        [self.ends[h / 2].0, self.ends[h / 2].1][h % 2]
    }

    fn way(&self, h: usize) -> (i64, i64) {
        let (x, y) = self.ways[h / 2];
        [(x, y), (-x, -y)][h % 2]
    }

    /// The half-edges out of each vertex, by number.
    pub fn outgoing(&self) -> Vec<Vec<usize>> {
        let mut outgoing = vec![Vec::new(); self.points.len()];
        (0..self.half_edges()).for_each(|h| outgoing[self.origin(h)].push(h));
        outgoing
    }

    /// "The follower of a half-edge arriving at p is the first outgoing half-edge clockwise from
    /// its twin; with one edge at p it is the twin." Clockwise first is counter-clockwise last;
    /// the angle is taken in a frame in which the twin points east.
    pub fn follower(&self, outgoing: &[Vec<usize>], h: usize) -> usize {
        let (ex, ey) = self.way(h ^ 1);
        let turned = |g: usize| {
            let (x, y) = self.way(g);
            (ex * x + ey * y, ex * y - ey * x)
        };
        let at = &outgoing[self.origin(h ^ 1)];
        let last = at.iter().copied().max_by(|&f, &g| by_angle(turned(f), turned(g)));
        last.expect("the twin is there")
    }

    /// "A walk is what following gives": the half-edges from h on. Only after a slip may it
    /// not come back to h.
    pub fn walk(&self, followers: &[usize], h: usize) -> Vec<usize> {
        let mut walk = vec![h];
        while followers[walk[walk.len() - 1]] != h && walk.len() < followers.len() {
            walk.push(followers[walk[walk.len() - 1]]);
        }
        walk
    }

    /// The smallest vertex of a walk.
    pub fn smallest(&self, walk: &[usize]) -> usize {
        let vertices = walk.iter().map(|&h| self.origin(h));
        let smallest = match self.slip {
            Some(Slip::LeastNumber) => vertices.min(),
            _ => vertices.min_by_key(|&v| self.points[v]),
        };
        smallest.expect("a walk has a vertex")
    }

    /// The half-edge of greatest angle among some.
    fn greatest(&self, some: impl Iterator<Item = usize>) -> usize {
        some.max_by(|&f, &g| by_angle(self.way(f), self.way(g))).expect("a vertex has an edge")
    }

    /// "It is a hole walk exactly if it holds the half-edge of greatest angle out of its own
    /// smallest vertex": that half-edge.
    pub fn hole_mark(&self, outgoing: &[Vec<usize>], walk: &[usize]) -> Option<usize> {
        let smallest = self.smallest(walk);
        let mut own = walk.iter().copied().filter(|&h| self.origin(h) == smallest);
        let greatest = self.greatest(outgoing[smallest].iter().copied());
        match self.slip {
            Some(Slip::OwnAngles) => Some(self.greatest(own)),
            Some(Slip::AnyCorner) => own.min().filter(|&h| h == greatest),
            _ => own.find(|&h| h == greatest),
        }
    }

    /// The lower and the upper end of edge k.
    fn lower_upper(&self, k: usize) -> (&Point, &Point) {
        let (a, b) = (&self.points[self.ends[k].0], &self.points[self.ends[k].1]);
        (a.min(b), a.max(b))
    }

    /// The direction of edge k from its lower end to its upper end.
    fn upward(&self, k: usize) -> (i64, i64) {
        let (x, y) = self.ways[k];
        if (y, x) > (0, 0) {
            (x, y)
        } else {
            (-x, -y)
        }
    }

    /// Where edge k lies at the height of p, as a fraction; the edge is not level.
    fn at_height(&self, k: usize, p: &Point) -> (i128, i128) {
        let ((dx, dy), (bx, by)) = (self.upward(k), self.bases[k]);
        let [dx, dy, bx, by] = [dx, dy, bx, by].map(|n| n as i128);
        let [y, d] = [p.y, p.d].map(|n| n as i128);
        (bx * dy * d + (y - by * d) * dx, dy * d)
    }

    /// Looking west from p: "candidates are edges with lower y <= y of p < upper y that at the
    /// height of p lie west of p, or go through or start at p with an upward direction of greater
    /// angle than e's. The nearest has the greatest x at that height; among equals, the smallest
    /// upward angle. What is seen is the half-edge on its east side." With no e only edges
    /// strictly west count.
    pub fn seen(&self, p: &Point, along: Option<(i64, i64)>) -> Option<usize> {
        let candidates = (0..self.ends.len()).filter(|&k| self.candidate(k, p, along));
        let nearest = candidates.max_by(|&j, &k| {
            let order = by_angle(self.upward(k), self.upward(j));
            let angles =
                if self.slip == Some(Slip::GreatestAngle) { order.reverse() } else { order };
            compare(self.at_height(j, p), self.at_height(k, p)).then(angles)
        });
        nearest.map(|k| 2 * k + (self.upward(k) == self.ways[k]) as usize)
    }

    /// Is edge k a candidate for the look from p?
    fn candidate(&self, k: usize, p: &Point, along: Option<(i64, i64)>) -> bool {
        let (lower, upper) = self.lower_upper(k);
        let height = |q: &Point| (q.y as i128 * p.d as i128).cmp(&(p.y as i128 * q.d as i128));
        let below_upper = match self.slip {
            Some(Slip::UpperEnd) => height(upper) != Ordering::Less && self.ways[k].1 != 0,
            _ => height(upper) == Ordering::Greater,
        };
        if height(lower) == Ordering::Greater || !below_upper {
            return false;
        }
        match compare(self.at_height(k, p), (p.x as i128, p.d as i128)) {
            Ordering::Less => true,
            Ordering::Equal => self.counts_through(k, along),
            Ordering::Greater => false,
        }
    }

    /// Does edge k, which goes through p or starts there, count?
    fn counts_through(&self, k: usize, along: Option<(i64, i64)>) -> bool {
        let Some(e) = along else { return self.slip == Some(Slip::NotStrict) };
        let order = by_angle(self.upward(k), e);
        match self.slip {
            Some(Slip::NotThrough) => false,
            Some(Slip::SmallerAngle) => order == Ordering::Less,
            Some(Slip::NotOverLevel) if e.1 == 0 => false,
            _ => order == Ordering::Greater,
        }
    }
}

/// "Angles of outgoing half-edges run from 0 (east) counter-clockwise to just under 360 degrees":
/// the quarter first, then the slope within it. In a turned frame a direction is at most
/// 2,048,000,000, so that the products have 62 bits.
fn by_angle(a: (i64, i64), b: (i64, i64)) -> Ordering {
    let quarter = |(x, y): (i64, i64)| match (x.signum(), y.signum()) {
        (1, 0 | 1) => (0, x, y),
        (0 | -1, 1) => (1, y, -x),
        (-1, 0 | -1) => (2, -x, -y),
        _ => (3, -y, x),
    };
    let ((p, run_a, rise_a), (q, run_b, rise_b)) = (quarter(a), quarter(b));
    p.cmp(&q).then((rise_a * run_b).cmp(&(rise_b * run_a)))
}

/// Compares two fractions with bottoms above 0. At a height they have tops of 62 bits and bottoms
/// of 46, with coordinates up to 16,000.
fn compare(a: (i128, i128), b: (i128, i128)) -> Ordering {
    (a.0 * b.1).cmp(&(b.0 * a.1))
}
