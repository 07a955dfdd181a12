//! Overlay files to look at: a picture (SVG), a layer for a map program (GeoJSON), a table (CSV).
//!
//! For viewing, not proved: each of the three says so. Places are decimals, the nearest that a float
//! has, with the exact fraction beside them.

pub mod csv;
pub mod geojson;
pub mod label;
mod legend;
pub mod svg;

use crate::area::Area;
use crate::meet::fraction;
use crate::point::Point;
use crate::tables::{Labels, Tables, VertexRow};

/// What stands in every output.
pub const NOTE: &str = "for viewing, not proved";

/// A face other than 0: its number, its triple, and the vertices of its outline, counter-clockwise,
/// and of its holes, clockwise. No ring comes to a vertex twice.
#[derive(Clone, Debug, PartialEq, Eq)]
pub struct Cell {
    pub face: usize,
    pub labels: Labels,
    pub outline: Vec<usize>,
    pub holes: Vec<Vec<usize>>,
}

impl Cell {
    /// Does it lie in a block and in no zone?
    pub fn is_gap(&self) -> bool {
        self.labels[0] == 0 && self.labels[1] > 0
    }

    /// The outline, then the holes.
    pub fn rings(&self) -> impl Iterator<Item = &Vec<usize>> {
        std::iter::once(&self.outline).chain(&self.holes)
    }
}

/// A place as decimals.
pub fn decimal(v: &VertexRow) -> (f64, f64) {
    (v.x as f64 / v.d as f64, v.y as f64 / v.d as f64)
}

/// A place exactly: `8/3 2`.
pub fn exact(v: &VertexRow) -> String {
    format!("{} {}", fraction(v.x, v.d), fraction(v.y, v.d))
}

/// The cells in the order of their numbers. The reader asks of a file that its records are sound,
/// not that its places are those of an overlay: a face without one outline is told here.
pub fn cells(tables: &Tables) -> Result<Vec<Cell>, String> {
    if let Some(v) = tables.vertices.iter().position(|v| v.d < 1) {
        return Err(format!("vertex {v} has D 0"));
    }
    let blank = |(face, row): (usize, &crate::tables::FaceRow)| Cell {
        face,
        labels: row.labels,
        outline: Vec::new(),
        holes: Vec::new(),
    };
    let mut cells: Vec<Cell> = tables.faces.iter().enumerate().map(blank).collect();
    for (face, ring) in walks(tables).into_iter().flat_map(|(f, walk)| split(f, &walk)) {
        let cell = &mut cells[face];
        match area(tables, &ring).sign() {
            0 => (),
            1 if face > 0 && cell.outline.is_empty() => cell.outline = ring,
            1 => return Err(format!("face {face} has more than one outline")),
            _ => cell.holes.push(ring),
        }
    }
    match cells.iter().skip(1).find(|cell| cell.outline.is_empty()) {
        Some(cell) => Err(format!("face {} has no outline", cell.face)),
        None => Ok(cells.split_off(1.min(cells.len()))),
    }
}

/// The vertices of each walk, with its face, in the order of their least half-edges.
fn walks(tables: &Tables) -> Vec<(usize, Vec<usize>)> {
    let mut seen = vec![false; tables.half_edges.len()];
    let mut walks = Vec::new();
    for start in 0..seen.len() {
        let (mut h, mut walk) = (start, Vec::new());
        while !std::mem::replace(&mut seen[h], true) {
            walk.push(tables.half_edges[h].origin as usize);
            h = tables.half_edges[h].follower as usize;
        }
        if !walk.is_empty() {
            walks.push((tables.half_edges[start].face as usize, walk));
        }
    }
    walks
}

/// A walk that comes to a vertex more than once, as rings that do not. What it goes along there and
/// back again is left out: it has no area, and no polygon has such an edge.
fn split(face: usize, walk: &[usize]) -> Vec<(usize, Vec<usize>)> {
    let (mut open, mut rings) = (Vec::new(), Vec::new());
    for &v in walk.iter().chain(&walk[..1]) {
        match open.iter().position(|&u| u == v) {
            Some(i) => {
                let ring: Vec<usize> = open.drain(i + 1..).collect();
                if ring.len() > 1 {
                    rings.push((face, std::iter::once(v).chain(ring).collect()));
                }
            }
            None => open.push(v),
        }
    }
    rings
}

fn area(tables: &Tables, ring: &[usize]) -> Area {
    let point = |v: usize| {
        let row = &tables.vertices[v];
        Point { x: row.x, y: row.y, d: row.d }
    };
    (0..ring.len()).map(|i| Area::step(&point(ring[i]), &point(ring[(i + 1) % ring.len()]))).sum()
}
