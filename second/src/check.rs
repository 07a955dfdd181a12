//! The check of one map file: rules 1 to 10, each over the whole map before the next.

use crate::answer::Refusal;
use crate::graph::{faces, Graph};
use crate::limits::REACH;
use crate::map::{decode, Map};
use crate::point::Point;
use crate::segment::clash;
use std::collections::HashSet;

/// The map in a file, or the refusal (with map 0).
pub fn check(bytes: &[u8]) -> Result<Map, Refusal> {
    let map = decode(bytes)?;
    match fault(&map) {
        Some(refusal) => Err(refusal),
        None => Ok(map),
    }
}

/// The first refusal among 5 to 10.
pub fn fault(map: &Map) -> Option<Refusal> {
    let rules: [fn(&Map) -> Option<usize>; 6] =
        [out_of_reach, doubled, bad_ends, clashing, lonely, disagreeing];
    let numbered = (5u16..).zip(rules);
    let mut found = numbered.filter_map(|(n, rule)| rule(map).map(|place| Refusal::new(n, place)));
    found.next().map(|refusal| match refusal.number {
        8 => refusal.beside(clashing_with(map, refusal.place)),
        _ => refusal,
    })
}

/// Rule 5: a coordinate beyond its range.
fn out_of_reach(map: &Map) -> Option<usize> {
    let beyond = |c: i16| !(-REACH..=REACH).contains(&(c as i64));
    map.vertices.iter().position(|&(x, y)| beyond(x) || beyond(y))
}

/// Rule 6: a vertex lies on one of lower number.
fn doubled(map: &Map) -> Option<usize> {
    let mut known = HashSet::new();
    map.vertices.iter().position(|place| !known.insert(*place))
}

/// Rule 7: an end names no vertex, or both ends are the same.
fn bad_ends(map: &Map) -> Option<usize> {
    let named = |v: u16| (v as usize) < map.vertices.len();
    let bad = |e: &crate::map::Edge| !named(e.from) || !named(e.to) || e.from == e.to;
    map.edges.iter().position(bad)
}

/// Rule 8: an edge shares with another a point that is not an end of both.
fn clashing(map: &Map) -> Option<usize> {
    let segments = map.segments();
    let with_later = |k: usize| segments[k + 1..].iter().any(|t| clash(&segments[k], t));
    (0..segments.len()).find(|&k| with_later(k))
}

/// The least edge that clashes with edge k, of lower or higher number.
fn clashing_with(map: &Map, k: usize) -> usize {
    let segments = map.segments();
    let mut others = (0..segments.len()).filter(|&j| j != k);
    others.find(|&j| clash(&segments[j], &segments[k])).expect("an edge that clashes")
}

/// Rule 9: a vertex has no edge.
fn lonely(map: &Map) -> Option<usize> {
    let used: HashSet<u16> = map.edges.iter().flat_map(|e| [e.from, e.to]).collect();
    (0..map.vertices.len()).find(|&v| !used.contains(&(v as u16)))
}

/// Rule 10: labels disagree.
fn disagreeing(map: &Map) -> Option<usize> {
    let graph = graph_of(map);
    let fans = graph.fans();
    let followers = graph.followers(&fans);
    let faces = faces(&graph, &followers);
    let mut wrong: Vec<bool> =
        (0..followers.len()).map(|h| map.label(h) != map.label(followers[h])).collect();
    for (walk, _) in faces.walks.iter().zip(&faces.hole).filter(|(_, &hole)| hole) {
        let smallest = walk.iter().map(|&h| graph.origin(h)).min_by_key(|&v| graph.points[v]);
        let smallest = smallest.expect("a walk has a half-edge");
        let greatest = *fans[smallest].last().expect("a vertex of a walk has a half-edge");
        let seen = seen_west(map, smallest as u16).map_or(0, |h| map.label(h));
        wrong[greatest] |= map.label(greatest) != seen;
    }
    wrong.iter().position(|&w| w)
}

/// The vertices and edges of a map; half-edge 2k is edge k from `from` to `to`.
pub fn graph_of(map: &Map) -> Graph {
    let whole = |&(x, y): &(i16, i16)| Point::whole(x as i64, y as i64);
    Graph {
        points: map.vertices.iter().map(whole).collect(),
        ends: map.edges.iter().map(|e| (e.from as usize, e.to as usize)).collect(),
        ways: map.segments().iter().map(|s| s.way()).collect(),
    }
}

/// The half-edge seen from a vertex, counting only edges strictly west of it.
///
/// All vertices lie on whole heights, so half a unit above the vertex no two edges meet, and
/// the edges there are the ones with lower y <= y of the vertex < upper y. Of those that are
/// west at the vertex's own height the one furthest east there is seen. With coordinates up to
/// 16,000 a top has 32 bits and a bottom 16.
fn seen_west(map: &Map, vertex: u16) -> Option<usize> {
    let (px, py) = map.place(vertex);
    let mut best: Option<(i64, i64, usize)> = None;
    for (k, edge) in map.edges.iter().enumerate() {
        let (from, to) = (map.place(edge.from), map.place(edge.to));
        let rises = from.1 < to.1;
        let (low, high) = if rises { (from, to) } else { (to, from) };
        if !(low.1 <= py && py < high.1) {
            continue;
        }
        let (dx, dy) = (high.0 - low.0, high.1 - low.1);
        if low.0 * dy + (py - low.1) * dx >= px * dy {
            continue;
        }
        let (top, bottom) = (2 * low.0 * dy + (2 * (py - low.1) + 1) * dx, 2 * dy);
        if best.is_none_or(|(t, b, _)| top * b > t * bottom) {
            best = Some((top, bottom, 2 * k + rises as usize));
        }
    }
    best.map(|(_, _, h)| h)
}
