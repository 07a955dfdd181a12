//! Map files: their bytes, and refusals 1 to 4.

use crate::answer::Refusal;
use crate::limits::*;
use crate::segment::Segment;

/// An edge of a map file, its fields as they stand.
#[derive(Clone, Copy, PartialEq, Eq, Debug)]
pub struct Edge {
    pub from: u16,
    pub to: u16,
    pub left: u16,
    pub right: u16,
}

impl Edge {
    /// The same edge, drawn the other way round.
    pub fn turned(self) -> Edge {
        Edge { from: self.to, to: self.from, left: self.right, right: self.left }
    }
}

/// The contents of a map file.
#[derive(Clone, PartialEq, Eq, Debug, Default)]
pub struct Map {
    pub vertices: Vec<(i16, i16)>,
    pub edges: Vec<Edge>,
}

impl Map {
    /// A vertex as a pair of whole numbers.
    pub fn place(&self, vertex: u16) -> (i64, i64) {
        let (x, y) = self.vertices[vertex as usize];
        (x as i64, y as i64)
    }

    /// Edge k as a straight edge. Its ends must name vertices.
    pub fn segment(&self, k: usize) -> Segment {
        let edge = self.edges[k];
        Segment::new(self.place(edge.from), self.place(edge.to))
    }

    /// All edges as straight edges.
    pub fn segments(&self) -> Vec<Segment> {
        (0..self.edges.len()).map(|k| self.segment(k)).collect()
    }

    /// The label of half-edge h: the left label of edge k for 2k, the right one for 2k + 1.
    pub fn label(&self, h: usize) -> u16 {
        let edge = self.edges[h / 2];
        [edge.left, edge.right][h % 2]
    }

    /// The bytes of the map file, whatever the map holds.
    pub fn bytes(&self) -> Vec<u8> {
        let mut out = MAP_MARK.to_vec();
        let mut number = |n: u16| out.extend_from_slice(&n.to_le_bytes());
        number(MAP_VERSION);
        number(self.vertices.len() as u16);
        number(self.edges.len() as u16);
        for &(x, y) in &self.vertices {
            number(x as u16);
            number(y as u16);
        }
        for edge in &self.edges {
            for field in [edge.from, edge.to, edge.left, edge.right] {
                number(field);
            }
        }
        out
    }
}

/// The 16-bit numbers of a file, low byte first; a last odd byte is left out.
pub fn numbers(bytes: &[u8]) -> Vec<u16> {
    let pairs = bytes.chunks_exact(2);
    pairs.map(|b| u16::from_le_bytes([b[0], b[1]])).collect()
}

/// Rules 1 to 4, and the map.
pub fn decode(bytes: &[u8]) -> Result<Map, Refusal> {
    if bytes.len() < MAP_HEAD || !bytes.starts_with(MAP_MARK) {
        return Err(Refusal::new(1, 0));
    }
    let head = numbers(&bytes[MAP_MARK.len()..MAP_HEAD]);
    let (vertices, edges) = (head[1] as usize, head[2] as usize);
    if head[0] != MAP_VERSION {
        return Err(Refusal::new(2, 0));
    }
    if vertices > MAP_VERTICES || edges > MAP_EDGES {
        return Err(Refusal::new(3, 0));
    }
    if bytes.len() != MAP_HEAD + MAP_VERTEX * vertices + MAP_EDGE * edges {
        return Err(Refusal::new(4, 0));
    }
    let (first, second) = bytes[MAP_HEAD..].split_at(MAP_VERTEX * vertices);
    let vertex = |n: &[u16]| (n[0] as i16, n[1] as i16);
    let edge = |n: &[u16]| Edge { from: n[0], to: n[1], left: n[2], right: n[3] };
    Ok(Map {
        vertices: numbers(first).chunks(2).map(vertex).collect(),
        edges: numbers(second).chunks(4).map(edge).collect(),
    })
}
