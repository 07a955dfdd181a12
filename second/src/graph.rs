//! Vertices and straight edges in the plane: followers, walks, areas, faces.
//!
//! Half-edge 2k runs along edge k from its first end to its second, 2k + 1 back. No two edges
//! share a point that is not an end of both.

use crate::area::Area;
use crate::point::{is_west, side, Point};
use std::cmp::Ordering;

/// Vertices and edges; `ways` holds for each edge a whole direction from its first end to
/// its second, of any length.
pub struct Graph {
    pub points: Vec<Point>,
    pub ends: Vec<(usize, usize)>,
    pub ways: Vec<(i64, i64)>,
}

/// Angle order of two directions, from east counter-clockwise.
pub fn by_angle(a: (i64, i64), b: (i64, i64)) -> Ordering {
    let upper = |(x, y): (i64, i64)| y > 0 || (y == 0 && x > 0);
    let turn = a.0 * b.1 - a.1 * b.0;
    upper(b).cmp(&upper(a)).then(0.cmp(&turn))
}

impl Graph {
    pub fn half_edges(&self) -> usize {
        2 * self.ends.len()
    }

    pub fn origin(&self, h: usize) -> usize {
        let (first, second) = self.ends[h / 2];
        [first, second][h % 2]
    }

    /// The direction of a half-edge.
    pub fn way(&self, h: usize) -> (i64, i64) {
        let (x, y) = self.ways[h / 2];
        [(x, y), (-x, -y)][h % 2]
    }

    /// For each vertex the half-edges out of it, from the least angle to the greatest.
    pub fn fans(&self) -> Vec<Vec<usize>> {
        let mut fans = vec![Vec::new(); self.points.len()];
        for h in 0..self.half_edges() {
            fans[self.origin(h)].push(h);
        }
        for fan in &mut fans {
            fan.sort_by(|&g, &h| by_angle(self.way(g), self.way(h)));
        }
        fans
    }

    /// The follower of each half-edge: in the fan where it arrives, the one before its twin.
    pub fn followers(&self, fans: &[Vec<usize>]) -> Vec<usize> {
        let mut followers = vec![0; self.half_edges()];
        for fan in fans {
            for (i, &out) in fan.iter().enumerate() {
                followers[out ^ 1] = fan[(i + fan.len() - 1) % fan.len()];
            }
        }
        followers
    }

    /// For each vertex the least vertex that is joined to it by edges.
    fn pieces(&self) -> Vec<usize> {
        let mut up: Vec<usize> = (0..self.points.len()).collect();
        fn root(up: &mut [usize], mut v: usize) -> usize {
            while up[v] != v {
                up[v] = up[up[v]];
                v = up[v];
            }
            v
        }
        for &(a, b) in &self.ends {
            let (a, b) = (root(&mut up, a), root(&mut up, b));
            up[a.max(b)] = a.min(b);
        }
        (0..up.len()).map(|v| root(&mut up, v)).collect()
    }

    /// Twice the area to the left of the closed walk; of part of a walk, what it adds to that.
    pub fn area(&self, walk: &[usize]) -> Area {
        let end = |h: usize| &self.points[self.origin(h)];
        walk.iter().map(|&h| Area::step(end(h), end(h ^ 1))).sum()
    }

    /// How often the walk runs round p, counter-clockwise, p being on none of its edges:
    /// counted on the ray from p to the north.
    pub fn winds(&self, walk: &[usize], p: &Point) -> i32 {
        let mut turns = 0;
        for &h in walk {
            let (a, b) = (&self.points[self.origin(h)], &self.points[self.origin(h ^ 1)]);
            let (a_beyond, b_beyond) = (is_west(p, a), is_west(p, b));
            if a_beyond && !b_beyond && side(a, b, p) > 0 {
                turns += 1;
            }
            if !a_beyond && b_beyond && side(a, b, p) < 0 {
                turns -= 1;
            }
        }
        turns
    }
}

/// The walks of a graph and the faces that they bound.
pub struct Faces {
    /// The half-edges of each walk, each walk from its least half-edge on.
    pub walks: Vec<Vec<usize>>,
    /// The walk of each half-edge.
    pub walk_of: Vec<usize>,
    /// Is the walk a hole walk?
    pub hole: Vec<bool>,
    /// The face of each walk. Face 0 is the outside.
    pub face: Vec<usize>,
    /// The outer walk of each face; none for face 0.
    pub outer: Vec<Option<usize>>,
    /// The number of hole walks of each face.
    pub holes: Vec<usize>,
}

impl Faces {
    /// The face at the left of a half-edge.
    pub fn of(&self, h: usize) -> usize {
        self.face[self.walk_of[h]]
    }
}

/// The walks that following gives, in the order of their least half-edges.
fn walks(followers: &[usize]) -> (Vec<Vec<usize>>, Vec<usize>) {
    let mut walk_of = vec![usize::MAX; followers.len()];
    let mut walks = Vec::new();
    for start in 0..followers.len() {
        let mut walk = Vec::new();
        let mut h = start;
        while walk_of[h] == usize::MAX {
            walk_of[h] = walks.len();
            walk.push(h);
            h = followers[h];
        }
        if !walk.is_empty() {
            walks.push(walk);
        }
    }
    (walks, walk_of)
}

/// Walks and faces. A walk is an outer walk if its area is above 0. A hole walk belongs to the
/// smallest face, by area within its outer walk, that runs round it in another piece.
pub fn faces(graph: &Graph, followers: &[usize]) -> Faces {
    let (walks, walk_of) = walks(followers);
    let areas: Vec<Area> = walks.iter().map(|walk| graph.area(walk)).collect();
    let hole: Vec<bool> = areas.iter().map(|area| area.sign() <= 0).collect();
    let mut face = vec![0; walks.len()];
    let mut outer = vec![None];
    for w in (0..walks.len()).filter(|&w| !hole[w]) {
        face[w] = outer.len();
        outer.push(Some(w));
    }
    let pieces = graph.pieces();
    let piece = |w: usize| pieces[graph.origin(walks[w][0])];
    let mut holes = vec![0; outer.len()];
    for w in (0..walks.len()).filter(|&w| hole[w]) {
        let p = &graph.points[graph.origin(walks[w][0])];
        let around = |&f: &usize| {
            let round = outer[f].expect("faces from 1 on have an outer walk");
            piece(round) != piece(w) && graph.winds(&walks[round], p) == 1
        };
        let inner = (1..outer.len()).filter(around);
        face[w] = inner.min_by_key(|&f| &areas[outer[f].unwrap_or(0)]).unwrap_or(0);
        holes[face[w]] += 1;
    }
    Faces { walks, walk_of, hole, face, outer, holes }
}
