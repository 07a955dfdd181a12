//! What must not change when a map is numbered anew, turned or mirrored.

use super::{holds, Found};
use crate::answer::Refusal;
use crate::area::Area;
use crate::check::fault;
use crate::graph::Graph;
use crate::limits::MAPS;
use crate::map::{Edge, Map};
use crate::overlay::{overlay, Overlay, Room};
use crate::point::Point;
use crate::random::Random;
use crate::tables::{FaceRow, Labels, Tables};

/// A map with its plane moved; a mirror exchanges left and right.
fn moved(map: &Map, to: impl Fn(i16, i16) -> (i16, i16), mirror: bool) -> Map {
    let side = |e: &Edge| if mirror { Edge { left: e.right, right: e.left, ..*e } } else { *e };
    Map {
        vertices: map.vertices.iter().map(|&(x, y)| to(x, y)).collect(),
        edges: map.edges.iter().map(side).collect(),
    }
}

/// A quarter turn to the left.
fn quarter(map: &Map) -> Map {
    moved(map, |x, y| (y.saturating_neg(), x), false)
}

/// West and east exchanged.
fn mirrored(map: &Map) -> Map {
    moved(map, |x, y| (x.saturating_neg(), y), true)
}

/// A turned map is refused by the same rule; up to rule 9 at the same place.
pub fn checks(map: &Map, found: Option<Refusal>) -> Found {
    for (name, other) in [("turned", quarter(map)), ("mirrored", mirrored(map))] {
        let now = fault(&other);
        let same = match (found, now) {
            (Some(a), Some(b)) if a.number == 10 => b.number == 10,
            (a, b) => a == b,
        };
        holds(same, || format!("check: {found:?}, {name} {now:?}"))?;
    }
    Ok(())
}

pub fn overlays(maps: &[Map; MAPS], done: &Overlay) -> Found {
    let again = |maps: &[Map; MAPS]| {
        let laid = overlay(&maps.each_ref(), &Room::FULL).map(|o| o.tables);
        laid.map_err(|refusal| format!("moved: {refusal}"))
    };
    let mut anew = maps.clone();
    let edges = anew.each_mut().map(|map| {
        let (map_anew, edges) = renumbered(map);
        *map = map_anew;
        edges
    });
    let mut tables = again(&anew)?;
    for sources in &mut tables.sources {
        for (source, edges) in sources.iter_mut().zip(&edges) {
            *source = source.map(|k| edges[k as usize]);
        }
    }
    holds(tables == done.tables, || "numbering anew changes more than sources".into())?;
    let faces = faces(&done.tables);
    for turn in [quarter, mirrored] {
        let other = again(&maps.each_ref().map(turn))?;
        holds(self::faces(&other) == faces, || "a turned or mirrored overlay differs".into())?;
    }
    Ok(())
}

/// The map with vertices and edges in another order and edges turned, and the old number of
/// each new edge.
fn renumbered(map: &Map) -> (Map, Vec<u16>) {
    let mut random = Random::new(map.edges.len() as u64, "renumbered");
    let vertices = random.order(map.vertices.len());
    let edges = random.order(map.edges.len());
    let mut new = Map { vertices: map.vertices.clone(), edges: Vec::new() };
    for (old, &at) in vertices.iter().enumerate() {
        new.vertices[at] = map.vertices[old];
    }
    for &old in &edges {
        let edge = map.edges[old];
        let (from, to) = (vertices[edge.from as usize] as u16, vertices[edge.to as usize] as u16);
        let edge = Edge { from, to, ..edge };
        new.edges.push(if random.once_in(2) { edge.turned() } else { edge });
    }
    (new, edges.iter().map(|&k| k as u16).collect())
}

/// The faces by labels, holes and twice the area, in an order of their own, and the counts of vertices
/// and edges.
fn faces(tables: &Tables) -> (Vec<(Labels, u16, Area)>, usize, usize) {
    let rows = &tables.half_edges;
    let graph = Graph {
        points: tables.vertices.iter().map(|v| Point { x: v.x, y: v.y, d: v.d }).collect(),
        ends: rows.chunks(2).map(|r| (r[0].origin.into(), r[1].origin.into())).collect(),
        ways: Vec::new(),
    };
    let mut areas = vec![Area::default(); tables.faces.len()];
    for (h, row) in rows.iter().enumerate() {
        let sum = &mut areas[row.face as usize];
        *sum = std::mem::take(sum) + graph.area(&[h]);
    }
    let face = |(f, area): (&FaceRow, Area)| (f.labels, f.holes, area);
    let mut faces: Vec<_> = tables.faces.iter().zip(areas).map(face).collect();
    faces.sort();
    (faces, tables.vertices.len(), tables.edges())
}
