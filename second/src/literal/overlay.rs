//! The overlay as document 01 says it.

use super::net::Net;
use super::slip::Slip;
use crate::limits::{MAPS, NO_HALF_EDGE};
use crate::map::Map;
use crate::point::{side, Point};
use crate::segment::Segment;
use crate::tables::{FaceRow, HalfEdgeRow, Labels, Sources, Tables, VertexRow};

/// The crossing of two edges that are not parallel: "exactly when both parameters lie from 0
/// to 1, ends included".
fn crossing(s: &Segment, t: &Segment, slip: Option<Slip>) -> Option<Point> {
    let ((u1, u2), (v1, v2)) = (s.way(), t.way());
    let (w1, w2) = (t.ax - s.ax, t.ay - s.ay);
    let bottom = u1 * v2 - u2 * v1;
    if bottom == 0 {
        return None;
    }
    let (first, second) = (w1 * v2 - w2 * v1, w1 * u2 - w2 * u1);
    let from_0_to_1 = |top: i64| {
        let (top, bottom) = (top * bottom.signum(), bottom.abs());
        0 <= top && top <= bottom
    };
    let met = from_0_to_1(first) && from_0_to_1(second);
    let (x, y) = (s.ax * bottom + u1 * first, s.ay * bottom + u2 * first);
    let sign = bottom.signum();
    met.then(|| match slip {
        Some(Slip::NotLowest) => Point { x: x * sign, y: y * sign, d: bottom * sign },
        _ => Point::lowest(x, y, bottom),
    })
}

/// "Vertices are those of any map and the meeting points of edges of any two" (02, Ask 13), in point
/// order, each once.
fn vertices(maps: &[&Map], slip: Option<Slip>) -> Vec<Point> {
    let whole = |&(x, y): &(i16, i16)| Point::whole(x as i64, y as i64);
    let mut points: Vec<Point> = maps.iter().flat_map(|m| m.vertices.iter().map(whole)).collect();
    let firsts = if slip == Some(Slip::FirstMapOnly) { 1 } else { maps.len() };
    for (i, one) in maps.iter().enumerate().take(firsts) {
        for s in one.segments() {
            let others = maps[i + 1..].iter().flat_map(|other| other.segments());
            points.extend(others.filter_map(|t| crossing(&s, &t, slip)));
        }
    }
    points.sort();
    points.dedup();
    points
}

/// A piece of an edge: its lower and upper vertex number, and where it comes from.
pub type Piece = ((usize, usize), Sources);

/// "Edges are the pieces of input edges between neighbouring overlay vertices on them; a piece
/// that comes from both maps stands once. They are sorted by lower, then upper vertex number." "A
/// piece may come from any of the three."
fn pieces(maps: &[&Map], points: &[Point], slip: Option<Slip>) -> Vec<Piece> {
    let mut pieces: Vec<Piece> = Vec::new();
    for (m, map) in maps.iter().enumerate() {
        for (k, s) in map.segments().iter().enumerate() {
            let [a, b] = s.ends();
            let on = |v: &usize| {
                let p = &points[*v];
                a.min(b) <= *p && *p <= a.max(b) && side(&a, &b, p) == 0
            };
            let mut on: Vec<usize> = (0..points.len()).filter(on).collect();
            if slip == Some(Slip::FirstCrossing) && on.len() > 3 {
                on.drain(2..on.len() - 1);
            }
            for pair in on.windows(2) {
                let source = Some(k as u16);
                let known = pieces.iter_mut().find(|(ends, _)| *ends == (pair[0], pair[1]));
                match known {
                    Some((_, sources)) if slip != Some(Slip::SharedTwice) => {
                        let two = sources.iter().flatten().count() == 2;
                        if !(two && slip == Some(Slip::TwoSources)) {
                            sources[m] = source;
                        }
                    }
                    _ => {
                        let mut sources = [None; MAPS];
                        sources[m] = source;
                        pieces.push(((pair[0], pair[1]), sources));
                    }
                }
            }
        }
    }
    pieces.sort_by_key(|&(ends, _)| ends);
    pieces
}

/// The vertices and edges of the overlay; an edge's line is that of its first source.
fn net(maps: &[&Map], points: Vec<Point>, pieces: &[Piece], slip: Option<Slip>) -> Net {
    let carrier = |sources: &Sources| {
        let mut known = maps.iter().zip(sources).filter_map(|(map, k)| k.map(|k| (map, k)));
        let (map, k) = known.next().expect("a piece comes from a map");
        map.segment(k as usize)
    };
    let upward = |s: Segment| {
        let (x, y) = s.way();
        if (y, x) > (0, 0) {
            (x, y)
        } else {
            (-x, -y)
        }
    };
    let carriers: Vec<Segment> = pieces.iter().map(|(_, sources)| carrier(sources)).collect();
    Net {
        points,
        ends: pieces.iter().map(|(ends, _)| *ends).collect(),
        bases: carriers.iter().map(|s| (s.ax, s.ay)).collect(),
        ways: carriers.into_iter().map(upward).collect(),
        slip,
    }
}

/// The vertices and edges of tables.
pub fn net_of(maps: &[&Map], tables: &Tables) -> Net {
    let points = tables.vertices.iter().map(|row| Point { x: row.x, y: row.y, d: row.d });
    let ends = tables.half_edges.chunks(2).map(|r| (r[0].origin as usize, r[1].origin as usize));
    let pieces: Vec<Piece> = ends.zip(tables.sources.iter().copied()).collect();
    net(maps, points.collect(), &pieces, None)
}

/// "The label of a half-edge in a map: if it lies along an edge of that map, the label of that
/// edge on that side; otherwise the label of what is seen looking west in that map from its
/// lower end along it."
fn label(map: &Map, of_map: &Net, net: &Net, source: Option<u16>, h: usize) -> u16 {
    match source {
        Some(k) => {
            let [from, to] = map.segment(k as usize).ends();
            let upward = h & 1 == 0;
            let with_it = (from < to) == upward;
            map.label(2 * k as usize + !with_it as usize)
        }
        None if net.slip == Some(Slip::BoundaryOnly) => 0,
        None => {
            let lower = &net.points[net.ends[h / 2].0];
            of_map.seen(lower, Some(net.ways[h / 2])).map_or(0, |g| map.label(g))
        }
    }
}

/// The face of each half-edge, the outer walks and the hole counts.
struct Sorted {
    face_of: Vec<usize>,
    least: Vec<usize>,
    holes: Vec<usize>,
}

/// "Each outer walk makes one face, numbered from 1 by the walk's least half-edge number. [...]
/// The hole belongs to the face of the half-edge seen, or to face 0."
fn sort_walks(net: &Net, followers: &[usize]) -> Sorted {
    let outgoing = net.outgoing();
    let mut walk_of = vec![usize::MAX; followers.len()];
    let mut walks = Vec::new();
    for h in 0..followers.len() {
        if walk_of[h] == usize::MAX {
            let walk = net.walk(followers, h);
            walk.iter().for_each(|&g| walk_of[g] = walks.len());
            walks.push(walk);
        }
    }
    let hole: Vec<bool> = walks.iter().map(|w| net.hole_mark(&outgoing, w).is_some()).collect();
    let least: Vec<usize> = (0..walks.len()).filter(|&w| !hole[w]).map(|w| walks[w][0]).collect();
    let west = |w: usize| net.seen(&net.points[net.smallest(&walks[w])], None);
    let steps = if net.slip == Some(Slip::OneStep) { 1 } else { walks.len() };
    let face = |mut w: usize| {
        for _ in 0..steps {
            if !hole[w] {
                break;
            }
            match west(w) {
                Some(h) => w = walk_of[h],
                None => return 0,
            }
        }
        least.iter().position(|&h| walk_of[h] == w).map_or(0, |f| f + 1)
    };
    let faces: Vec<usize> = (0..walks.len()).map(face).collect();
    let mut holes = vec![0; least.len() + 1];
    (0..walks.len()).filter(|&w| hole[w]).for_each(|w| holes[faces[w]] += 1);
    Sorted { face_of: walk_of.iter().map(|&w| faces[w]).collect(), least, holes }
}

/// The tables of the overlay and the labels of each half-edge, with no regard to the room.
pub fn overlay(maps: &[&Map], slip: Option<Slip>) -> (Tables, Vec<Labels>) {
    let points = vertices(maps, slip);
    let pieces = pieces(maps, &points, slip);
    tables_of(maps, points, &pieces, slip)
}

/// The tables of some vertices and pieces of edges, and the labels of each half-edge.
pub fn tables_of(
    maps: &[&Map],
    points: Vec<Point>,
    pieces: &[Piece],
    slip: Option<Slip>,
) -> (Tables, Vec<Labels>) {
    let net = net(maps, points, pieces, slip);
    let of_maps: Vec<Net> = maps.iter().map(|map| Net::of(map, slip)).collect();
    let outgoing = net.outgoing();
    let followers: Vec<usize> = (0..net.half_edges()).map(|h| net.follower(&outgoing, h)).collect();
    let labels = |h: usize| {
        let mut labels = [0; MAPS];
        for (m, map) in maps.iter().enumerate() {
            labels[m] = label(map, &of_maps[m], &net, pieces[h / 2].1[m], h);
        }
        if slip == Some(Slip::ThirdAsSecond) {
            labels[2] = labels[1];
        }
        labels
    };
    let labels: Vec<Labels> = (0..net.half_edges()).map(labels).collect();
    let sorted = sort_walks(&net, &followers);
    let number = |h: Option<usize>| h.map_or(NO_HALF_EDGE, |h| h as u16);
    let half_edge = |h: usize| HalfEdgeRow {
        origin: net.origin(h) as u16,
        twin: (h ^ 1) as u16,
        follower: followers[h] as u16,
        predecessor: number(followers.iter().position(|&f| f == h)),
        face: sorted.face_of[h] as u16,
    };
    let vertex = |v: usize| {
        let Point { x, y, d } = net.points[v];
        VertexRow { x, y, d, out: number(outgoing[v].first().copied()) }
    };
    let outside = FaceRow { labels: [0; MAPS], least: NO_HALF_EDGE, holes: sorted.holes[0] as u16 };
    let inner = sorted.least.iter().zip(&sorted.holes[1..]).map(|(&h, &holes)| FaceRow {
        labels: labels[h],
        least: h as u16,
        holes: holes as u16,
    });
    let tables = Tables {
        vertices: (0..net.points.len()).map(vertex).collect(),
        half_edges: (0..net.half_edges()).map(half_edge).collect(),
        sources: pieces.iter().map(|(_, sources)| *sources).collect(),
        faces: std::iter::once(outside).chain(inner).collect(),
    };
    (tables, labels)
}
