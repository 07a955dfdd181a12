//! Polygons to a map. Each polygon claims the side of its edges on which it lies; an edge that two
//! polygons have in common is one edge with two claims.
//!
//! Coordinates lie within 16,000: a cross product of two differences has 32 bits, of doubled ones 34,
//! and the squares below have 64 bits at most.

use super::{At, Polygon, Ring, Whence};
use crate::limits::{MAP_EDGES, MAP_VERTICES};
use crate::map::{Edge, Map};
use crate::meet::{meeting, Meeting};
use crate::segment::Segment;
use std::collections::{BTreeMap, BTreeSet, HashMap, HashSet};

/// Who claims a side: the polygon's number, and where the ring stands.
type Claim = (usize, Whence);

/// The piece between two vertices, as it came first, with who claims its left and its right.
struct Piece {
    from: At,
    to: At,
    sides: [Vec<Claim>; 2],
}

/// The map of polygons that do not overlap.
pub fn map(mut polygons: Vec<Polygon>) -> Result<Map, String> {
    let vertices = vertices(&polygons)?;
    for polygon in &mut polygons {
        for (r, ring) in polygon.rings.iter_mut().enumerate() {
            split(ring, &vertices);
            simple(ring)?;
            let left = twice_area(&ring.corners) > 0;
            if left != (r == 0) {
                ring.corners.reverse();
            }
        }
    }
    let pieces = pieces(&polygons);
    if pieces.len() > MAP_EDGES {
        return Err(format!("{} edges, and a map has {MAP_EDGES} at most", pieces.len()));
    }
    no_crossing(&pieces)?;
    holes_inside(&polygons)?;
    no_overlap(&polygons, &pieces)?;
    no_hair(&vertices, &pieces)?;
    let number: HashMap<At, u16> = vertices.iter().copied().zip(0..).collect();
    let label = |side: &Vec<Claim>| side.first().map_or(0, |&(p, _)| polygons[p].label);
    let edge = |p: &Piece| Edge {
        from: number[&p.from],
        to: number[&p.to],
        left: label(&p.sides[0]),
        right: label(&p.sides[1]),
    };
    let corner = |&(x, y): &At| (x as i16, y as i16);
    Ok(Map {
        vertices: vertices.iter().map(corner).collect(),
        edges: pieces.iter().map(edge).collect(),
    })
}

/// All corners, each once, in the order in which they come.
fn vertices(polygons: &[Polygon]) -> Result<Vec<At>, String> {
    let mut known = HashSet::new();
    let rings = polygons.iter().flat_map(|p| &p.rings);
    let corners = rings.flat_map(|r| &r.corners).copied();
    let all: Vec<At> = corners.filter(|&p| known.insert(p)).collect();
    match all.len() > MAP_VERTICES {
        true => Err(format!("{} vertices, and a map has {MAP_VERTICES} at most", all.len())),
        false => Ok(all),
    }
}

fn cross(a: At, b: At, p: At) -> i64 {
    (b.0 - a.0) * (p.1 - a.1) - (b.1 - a.1) * (p.0 - a.0)
}

/// How far along from a to b the point p lies, times the square of the length.
fn along(a: At, b: At, p: At) -> i64 {
    (b.0 - a.0) * (p.0 - a.0) + (b.1 - a.1) * (p.1 - a.1)
}

/// Puts into a ring the vertices that lie on its edges.
fn split(ring: &mut Ring, vertices: &[At]) {
    let old = std::mem::take(&mut ring.corners);
    for (i, &a) in old.iter().enumerate() {
        let b = old[(i + 1) % old.len()];
        let within =
            |p: At| cross(a, b, p) == 0 && 0 < along(a, b, p) && along(a, b, p) < along(a, b, b);
        let mut on: Vec<At> = vertices.iter().copied().filter(|&p| within(p)).collect();
        on.sort_by_key(|&p| along(a, b, p));
        ring.corners.push(a);
        ring.corners.extend(on);
    }
}

/// A ring comes to no place twice.
fn simple(ring: &Ring) -> Result<(), String> {
    let mut known = HashSet::new();
    match ring.corners.iter().find(|&&p| !known.insert(p)) {
        Some((x, y)) => Err(format!("{}: it comes to {x} {y} twice", ring.whence)),
        None => Ok(()),
    }
}

/// Twice the area to the left of a ring. Each step has 30 bits.
fn twice_area(corners: &[At]) -> i64 {
    let next = corners.iter().cycle().skip(1);
    corners.iter().zip(next).map(|(a, b)| a.0 * b.1 - a.1 * b.0).sum()
}

/// The edges of a ring.
fn edges(ring: &Ring) -> impl Iterator<Item = (At, At)> + '_ {
    let next = ring.corners.iter().cycle().skip(1);
    ring.corners.iter().copied().zip(next.copied())
}

/// The pieces, each once, in the order in which they come.
fn pieces(polygons: &[Polygon]) -> Vec<Piece> {
    let mut number = BTreeMap::new();
    let mut pieces: Vec<Piece> = Vec::new();
    for (p, polygon) in polygons.iter().enumerate() {
        for ring in &polygon.rings {
            for (from, to) in edges(ring) {
                let k = *number.entry((from.min(to), from.max(to))).or_insert(pieces.len());
                if k == pieces.len() {
                    pieces.push(Piece { from, to, sides: Default::default() });
                }
                let side = (pieces[k].from != from) as usize;
                pieces[k].sides[side].push((p, ring.whence));
            }
        }
    }
    pieces
}

/// Where a piece stands, as it may be told: that of a ring that has it.
fn told(piece: &Piece) -> String {
    let whence = piece.sides.iter().flatten().next().map(|(_, whence)| whence.to_string());
    let ((x, y), (u, v)) = (piece.from, piece.to);
    format!("{}: the edge from {x} {y} to {u} {v}", whence.unwrap_or_default())
}

/// All vertices on an edge are its ends now, so that two pieces that clash cross inside both.
fn no_crossing(pieces: &[Piece]) -> Result<(), String> {
    for (k, one) in pieces.iter().enumerate() {
        for other in &pieces[k + 1..] {
            let met = meeting(&Segment::new(one.from, one.to), &Segment::new(other.from, other.to));
            if let Meeting::Crossing(p) = met {
                let at = [p.x, p.y].map(|c| crate::meet::fraction(c, p.d)).join(" ");
                return Err(format!("{} crosses {}, at {at}", told(one), told(other)));
            }
        }
    }
    Ok(())
}

/// Is the middle between a and b inside a ring on which it does not lie? A ray to the north is
/// counted, in doubled coordinates.
fn holds(ring: &Ring, a: At, b: At) -> bool {
    let mid = (a.0 + b.0, a.1 + b.1);
    let twice = |p: At| (2 * p.0, 2 * p.1);
    let over = |(s, t): &(At, At)| {
        let (s, t) = (twice(*s), twice(*t));
        let (west, east) = if s.0 < t.0 { (s, t) } else { (t, s) };
        west.0 <= mid.0 && mid.0 < east.0 && cross(west, east, mid) < 0
    };
    edges(ring).filter(over).count() % 2 == 1
}

/// A hole lies inside its outline, in no other hole, and has no edge in common with either.
fn holes_inside(polygons: &[Polygon]) -> Result<(), String> {
    for polygon in polygons {
        let mut taken = BTreeSet::new();
        for (r, ring) in polygon.rings.iter().enumerate() {
            for (a, b) in edges(ring) {
                let wrong = |why: &str| {
                    let ((x, y), (u, v)) = (a, b);
                    Err(format!("{}: the edge from {x} {y} to {u} {v} {why}", ring.whence))
                };
                if !taken.insert((a.min(b), a.max(b))) {
                    return wrong("is also one of another ring of the polygon");
                }
                if r > 0 && !holds(&polygon.rings[0], a, b) {
                    return wrong("of a hole does not lie inside its outline");
                }
                let mut others = polygon.rings.iter().enumerate().skip(1);
                if r > 0 && others.any(|(o, other)| o != r && holds(other, a, b)) {
                    return wrong("of a hole lies inside another hole");
                }
            }
        }
    }
    Ok(())
}

/// Each side of each piece lies in one polygon at most: one that claims it, or one inside of which the
/// piece runs.
fn no_overlap(polygons: &[Polygon], pieces: &[Piece]) -> Result<(), String> {
    for piece in pieces {
        for side in &piece.sides {
            if let [(_, one), (_, other), ..] = side[..] {
                let place = told(piece).split_once(": ").map(|(_, at)| at.to_string());
                let place = place.unwrap_or_default();
                return Err(format!("{one}: {place} has on the same side {other}: they overlap"));
            }
        }
        let claims: Vec<usize> = piece.sides.iter().flatten().map(|&(p, _)| p).collect();
        for (p, polygon) in polygons.iter().enumerate().filter(|(p, _)| !claims.contains(p)) {
            let mut holes = polygon.rings[1..].iter();
            let inside = |ring: &Ring| holds(ring, piece.from, piece.to);
            if inside(&polygon.rings[0]) && !holes.any(inside) {
                let whence = polygons[p].rings[0].whence;
                return Err(format!("{} runs inside of {whence}: they overlap", told(piece)));
            }
        }
    }
    Ok(())
}

/// A vertex that lies less than one unit from an edge, on a side of it that no polygon claims, and on
/// the edge it does not lie: a gap of a hair. The square of the cross product has 64 bits.
fn no_hair(vertices: &[At], pieces: &[Piece]) -> Result<(), String> {
    for piece in pieces {
        let (a, b) = (piece.from, piece.to);
        let long = along(a, b, b);
        for &p in vertices.iter().filter(|&&p| p != a && p != b) {
            let (turn, foot) = (cross(a, b, p), along(a, b, p));
            let open = piece.sides[(turn < 0) as usize].is_empty();
            let near = (turn as i128).pow(2) < long as i128 && 0 < foot && foot < long;
            if open && near {
                let (x, y) = p;
                let far = ((turn as f64).powi(2) / long as f64).sqrt();
                return Err(format!(
                    "{} passes {x} {y} at a distance of {far:.4} with nothing between: \
                     a gap of a hair",
                    told(piece)
                ));
            }
        }
    }
    Ok(())
}
