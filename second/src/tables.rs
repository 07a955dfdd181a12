//! The tables of an overlay, their listing and their digest.

use crate::limits::{MAPS, NO_HALF_EDGE};
use std::fmt::Write;

/// A vertex row: the point (x / d, y / d) and the least half-edge out of it.
#[derive(Clone, Copy, PartialEq, Eq, Debug)]
pub struct VertexRow {
    pub x: i64,
    pub y: i64,
    pub d: i64,
    pub out: u16,
}

/// A half-edge row.
#[derive(Clone, Copy, PartialEq, Eq, Debug)]
pub struct HalfEdgeRow {
    pub origin: u16,
    pub twin: u16,
    pub follower: u16,
    pub predecessor: u16,
    pub face: u16,
}

/// The edge number in each map.
pub type Sources = [Option<u16>; MAPS];

/// The label in each map: a triple.
pub type Labels = [u16; MAPS];

/// A face row: the triple, the least outer half-edge and the number of hole walks.
#[derive(Clone, Copy, PartialEq, Eq, Debug)]
pub struct FaceRow {
    pub labels: Labels,
    pub least: u16,
    pub holes: u16,
}

/// The tables; the counts are their lengths.
#[derive(Clone, PartialEq, Eq, Debug, Default)]
pub struct Tables {
    pub vertices: Vec<VertexRow>,
    pub half_edges: Vec<HalfEdgeRow>,
    pub sources: Vec<Sources>,
    pub faces: Vec<FaceRow>,
}

impl Tables {
    pub fn edges(&self) -> usize {
        self.sources.len()
    }

    /// The number of faces other than 0 that lie in a block and in no zone.
    pub fn gaps(&self) -> usize {
        let blocks = self.faces.iter().skip(1).filter(|f| f.labels[1] > 0);
        blocks.filter(|f| f.labels[0] == 0).count()
    }

    /// Works out each vertex's least outgoing half-edge from the origins; an origin that names
    /// no vertex is passed over.
    pub fn set_least_outgoing(&mut self) {
        for vertex in &mut self.vertices {
            vertex.out = NO_HALF_EDGE;
        }
        for (h, row) in self.half_edges.iter().enumerate() {
            if let Some(vertex) = self.vertices.get_mut(row.origin as usize) {
                vertex.out = vertex.out.min(h as u16);
            }
        }
    }

    /// The listing: the counts, a line for each face with its first two labels, the number of gaps.
    pub fn listing(&self) -> String {
        let mut out = format!("{}\n", self.counts());
        for (f, face) in self.faces.iter().enumerate() {
            let least = match f {
                0 => "-".to_string(),
                _ => face.least.to_string(),
            };
            let [first, second, ..] = face.labels;
            let line = format!("face {f} {first} {second} {least} {}", face.holes);
            writeln!(out, "{line}").expect("a string takes all text");
        }
        out + &format!("gaps {}\n", self.gaps())
    }

    /// A line for each edge: its number, its lower and its upper vertex, and its number in each map
    /// from which it comes. An edge of none has no line.
    pub fn edge_lines(&self) -> String {
        let line = |(k, sources): (usize, &Sources)| {
            let [lower, upper] = [2 * k, 2 * k + 1].map(|h| self.half_edges[h].origin);
            let from = match *sources {
                [Some(a), Some(b), Some(c)] => format!("all {a} {b} {c}"),
                [Some(a), Some(b), None] => format!("both {a} {b}"),
                [None, None, None] => return String::new(),
                _ => {
                    let names = ["first", "second", "third"].iter().zip(sources);
                    let word = |(name, k): (&&str, &Option<u16>)| k.map(|k| format!("{name} {k}"));
                    names.filter_map(word).collect::<Vec<_>>().join(" ")
                }
            };
            format!("edge {k} {lower} {upper} {from}\n")
        };
        self.sources.iter().enumerate().map(line).collect()
    }

    /// The first line of the listing.
    fn counts(&self) -> String {
        let (v, e, f) = (self.vertices.len(), self.edges(), self.faces.len());
        format!("vertices {v} edges {e} faces {f}")
    }

    /// The counts and a digest of every row: `V E F HEX`.
    pub fn digest(&self) -> String {
        let (v, e, f) = (self.vertices.len(), self.edges(), self.faces.len());
        let mut sum = Fnv::new();
        for count in [v, e, f] {
            sum.add(&(count as u16).to_le_bytes());
        }
        for row in &self.vertices {
            for field in [row.x, row.y, row.d, row.out as i64] {
                sum.add(&field.to_le_bytes());
            }
        }
        for row in &self.half_edges {
            for field in [row.origin, row.twin, row.follower, row.predecessor, row.face] {
                sum.add(&field.to_le_bytes());
            }
        }
        for sources in &self.sources {
            for source in sources {
                sum.add(&source.map_or(0, |k| k as u32 + 1).to_le_bytes());
            }
        }
        for row in &self.faces {
            for field in row.labels.into_iter().chain([row.least, row.holes]) {
                sum.add(&field.to_le_bytes());
            }
        }
        format!("{v} {e} {f} {:016x}", sum.value)
    }
}

/// The FNV-1a sum of 64 bits.
pub struct Fnv {
    pub value: u64,
}

impl Fnv {
    pub fn new() -> Fnv {
        Fnv { value: 0xcbf2_9ce4_8422_2325 }
    }

    pub fn add(&mut self, bytes: &[u8]) {
        for &byte in bytes {
            self.value = (self.value ^ byte as u64).wrapping_mul(0x0000_0100_0000_01b3);
        }
    }
}
