//! Laws of one overlay: Euler's formula, one triple in each face, areas, vertices in order.

use super::{holds, Found};
use crate::area::Area;
use crate::check::graph_of;
use crate::graph::Graph;
use crate::limits::{DENOMINATOR, REACH};
use crate::map::Map;
use crate::overlay::Overlay;
use crate::point::{common, Point};
use std::collections::{BTreeMap, HashSet};

pub fn all(maps: &[&Map], done: &Overlay) -> Found {
    vertices(done)?;
    euler(done)?;
    one_triple(done)?;
    room_for_faces(done)?;
    areas(maps, done)
}

/// Vertices are in lowest terms, within their numbers and in strict point order.
fn vertices(done: &Overlay) -> Found {
    for v in &done.tables.vertices {
        let reach = REACH * v.d;
        let lowest = v.d > 0 && common(common(v.x, v.y), v.d) == 1;
        let within = v.d <= DENOMINATOR && v.x.abs() <= reach && v.y.abs() <= reach;
        holds(lowest && within, || format!("vertex {v:?} is out of form"))?;
    }
    let point = |i: usize| {
        let v = &done.tables.vertices[i];
        Point { x: v.x, y: v.y, d: v.d }
    };
    let ordered = (1..done.tables.vertices.len()).all(|i| point(i - 1) < point(i));
    holds(ordered, || "vertices are out of order".into())
}

/// Vertices - edges + faces = 1 + pieces, pieces counted by flooding.
fn euler(done: &Overlay) -> Found {
    let t = &done.tables;
    let mut known = vec![false; t.vertices.len()];
    let mut pieces = 0;
    let mut next: Vec<Vec<usize>> = vec![Vec::new(); known.len()];
    for row in t.half_edges.chunks(2) {
        next[row[0].origin as usize].push(row[1].origin as usize);
        next[row[1].origin as usize].push(row[0].origin as usize);
    }
    for start in 0..known.len() {
        pieces += !known[start] as usize;
        let mut open = vec![start];
        while let Some(v) = open.pop() {
            if !std::mem::replace(&mut known[v], true) {
                open.extend(&next[v]);
            }
        }
    }
    let (v, e, f) = (t.vertices.len(), t.edges(), t.faces.len());
    holds(v + f == e + 1 + pieces, || format!("{v} - {e} + {f} for {pieces} pieces"))
}

/// All half-edges of a face have the face's labels.
fn one_triple(done: &Overlay) -> Found {
    for (h, row) in done.tables.half_edges.iter().enumerate() {
        let face = &done.tables.faces[row.face as usize];
        let same = done.labels[h] == face.labels;
        holds(same, || format!("half-edge {h} has not the labels of face {}", row.face))?;
    }
    Ok(())
}

/// Three half-edges or more round each face and round all of them: 3 F <= 2 E, but for face 0
/// alone. So 2,000 edges never bound more than 1,333 faces.
fn room_for_faces(done: &Overlay) -> Found {
    let (faces, edges) = (done.tables.faces.len(), done.tables.edges());
    let fits = faces == 1 || 3 * faces <= 2 * edges;
    holds(fits, || format!("{faces} faces for {edges} edges"))
}

/// The faces with a label have together the area that the label has in its map, and every
/// face has an area above 0.
fn areas(maps: &[&Map], done: &Overlay) -> Found {
    let t = &done.tables;
    let point = |v: &crate::tables::VertexRow| Point { x: v.x, y: v.y, d: v.d };
    let graph = Graph {
        points: t.vertices.iter().map(point).collect(),
        ends: t.half_edges.chunks(2).map(|r| (r[0].origin.into(), r[1].origin.into())).collect(),
        ways: Vec::new(),
    };
    let mut of_face = vec![Area::default(); t.faces.len()];
    for (h, row) in t.half_edges.iter().enumerate() {
        let sum = &mut of_face[row.face as usize];
        *sum = std::mem::take(sum) + graph.area(&[h]);
    }
    let above = of_face[1..].iter().all(|area| area.sign() > 0);
    holds(above, || "a face without an area".into())?;
    let whole: Area = of_face.iter().cloned().sum();
    holds(whole.sign() == 0, || "inside and outside differ in area".into())?;
    for (m, map) in maps.iter().enumerate() {
        let mut by_label: BTreeMap<u16, Area> = BTreeMap::new();
        for (face, area) in t.faces.iter().zip(&of_face) {
            let sum = by_label.entry(face.labels[m]).or_default();
            *sum = std::mem::take(sum) + area.clone();
        }
        let graph = graph_of(map);
        for h in 0..graph.half_edges() {
            let sum = by_label.entry(map.label(h)).or_default();
            *sum = std::mem::take(sum) - graph.area(&[h]);
        }
        let even = by_label.values().all(|rest| rest.sign() == 0);
        holds(even, || format!("areas by label differ in map {}", m + 1))?;
    }
    holds(distinct(done), || "an edge stands twice".into())
}

fn distinct(done: &Overlay) -> bool {
    let mut known = HashSet::new();
    done.tables.half_edges.chunks(2).all(|r| known.insert((r[0].origin, r[1].origin)))
}
