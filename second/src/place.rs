//! Where a refusal of a map is: a sentence with coordinates, and of a text map with the line and the
//! names that stand there.

use crate::answer::Refusal;
use crate::limits::{MAP_EDGES, MAP_VERTICES, REACH};
use crate::map::Map;
use crate::meet;
use crate::text::Lines;

/// The sentence for a refusal of a map: `vertex 5 lies on vertex 2, at 10 20`. With the lines of a
/// text map: `line 21: edge 1 (b to c) crosses edge 3 (d to a) at 5 5`.
pub fn sentence(map: &Map, refusal: &Refusal, lines: Option<&Lines>) -> String {
    let told = Told { map, lines };
    let place = refusal.place;
    match refusal.number {
        5 => told.at_vertex(place, &format!("lies beyond {REACH}")),
        6 => {
            let here = map.vertices[place];
            let first = map.vertices.iter().position(|&p| p == here).unwrap_or(place);
            told.at_vertex(place, &format!("lies on {}", told.vertex(first)))
        }
        7 => told.line_of_edge(place) + &told.bad_ends(place),
        8 => {
            let edge = |k: usize| told.edge(k);
            told.line_of_edge(place) + &meet::sentence_with(map, place, refusal.other, edge)
        }
        9 => told.at_vertex(place, "has no edge"),
        10 => told.line_of_edge(place / 2) + &told.labels(place),
        _ => file_sentence(refusal).to_string(),
    }
}

/// The sentence for a refusal with 1 to 4, of a file that holds no map.
pub fn file_sentence(refusal: &Refusal) -> String {
    match refusal.number {
        1 => "not a map file".to_string(),
        2 => "not a map file of version 1".to_string(),
        3 => format!("more than {MAP_VERTICES} vertices or {MAP_EDGES} edges"),
        _ => "its length is not what its counts say".to_string(),
    }
}

struct Told<'a> {
    map: &'a Map,
    lines: Option<&'a Lines>,
}

impl Told<'_> {
    /// The name of a vertex, or its number.
    fn name(&self, v: usize) -> String {
        let name = self.lines.and_then(|lines| lines.names.get(v).cloned().flatten());
        name.unwrap_or(v.to_string())
    }

    fn vertex(&self, v: usize) -> String {
        match self.name(v) {
            name if name == v.to_string() => format!("vertex {v}"),
            name => format!("vertex {v} ({name})"),
        }
    }

    fn edge(&self, k: usize) -> String {
        let edge = self.map.edges[k];
        match self.lines {
            Some(_) => {
                let [from, to] = [edge.from, edge.to].map(|v| self.name(v as usize));
                format!("edge {k} ({from} to {to})")
            }
            None => format!("edge {k}"),
        }
    }

    fn at_vertex(&self, v: usize, what: &str) -> String {
        let (x, y) = self.map.vertices[v];
        let line = self.lines.map(|lines| format!("line {}: ", lines.vertices[v]));
        format!("{}{} {what}, at {x} {y}", line.unwrap_or_default(), self.vertex(v))
    }

    fn line_of_edge(&self, k: usize) -> String {
        self.lines.map(|lines| format!("line {}: ", lines.edges[k])).unwrap_or_default()
    }

    /// An end that is no vertex, or two equal ends.
    fn bad_ends(&self, k: usize) -> String {
        let edge = self.map.edges[k];
        let there = |v: u16| (v as usize) < self.map.vertices.len();
        match [edge.from, edge.to].into_iter().find(|&v| !there(v)) {
            Some(v) => {
                let last = self.map.vertices.len();
                format!("{} has an end {v}, and there are {last} vertices", self.edge(k))
            }
            None => {
                let (x, y) = self.map.place(edge.from);
                let end = self.vertex(edge.from as usize);
                format!("{} begins and ends in {end}, at {x} {y}", self.edge(k))
            }
        }
    }

    fn labels(&self, h: usize) -> String {
        let edge = self.map.edges[h / 2];
        let side = ["left", "right"][h % 2];
        let ((x, y), (u, v)) = (self.map.place(edge.from), self.map.place(edge.to));
        format!(
            "the label {} at the {side} of {} disagrees with others round its cell, from {x} {y} \
             to {u} {v}",
            self.map.label(h),
            self.edge(h / 2)
        )
    }
}
