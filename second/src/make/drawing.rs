//! A drawing: vertices and edges that never break rules 3 and 5 to 9, and the labels of its faces.

use crate::check::graph_of;
use crate::graph::faces;
use crate::limits::{MAP_EDGES, MAP_VERTICES, REACH};
use crate::map::{Edge, Map};
use crate::random::Random;
use crate::segment::{clash, Segment};

pub type Place = (i64, i64);

/// Edges that do not clash, and the most there may be.
#[derive(Clone)]
pub struct Drawing {
    most: usize,
    places: Vec<Place>,
    edges: Vec<(usize, usize)>,
    segments: Vec<Segment>,
}

/// How the labels of the faces other than the outside are chosen.
#[derive(Clone, Copy, PartialEq, Eq, Debug)]
pub enum Palette {
    /// 1, 2, 3 and so on.
    Each,
    /// One of 0 to n, so that neighbours are often alike and inner faces often 0.
    Few(u16),
    /// The same label everywhere.
    Same(u16),
    /// Any 16 bits.
    Wild,
}

impl Palette {
    pub fn any(random: &mut Random) -> Palette {
        match random.below(8) {
            0 | 1 => Palette::Each,
            2 => Palette::Same(random.bits() as u16),
            3 | 4 => Palette::Wild,
            n => Palette::Few(n as u16 - 3),
        }
    }

    fn label(self, face: usize, random: &mut Random) -> u16 {
        match self {
            Palette::Each => face as u16,
            Palette::Few(n) => random.below(n as usize + 1) as u16,
            Palette::Same(label) => label,
            Palette::Wild => random.bits() as u16,
        }
    }
}

impl Default for Drawing {
    fn default() -> Drawing {
        Drawing::of_most(MAP_EDGES)
    }
}

impl Drawing {
    pub fn new() -> Drawing {
        Drawing::default()
    }

    /// A drawing that takes at most so many edges.
    pub fn of_most(most: usize) -> Drawing {
        Drawing { most, places: Vec::new(), edges: Vec::new(), segments: Vec::new() }
    }

    pub fn edges(&self) -> usize {
        self.edges.len()
    }

    pub fn vertices(&self) -> usize {
        self.places.len()
    }

    pub fn places(&self) -> &[Place] {
        &self.places
    }

    pub fn segments(&self) -> &[Segment] {
        &self.segments
    }

    /// The number of the vertex at a place, if there is one.
    fn find(&self, place: Place) -> Option<usize> {
        self.places.iter().position(|&p| p == place)
    }

    fn vertex(&mut self, place: Place) -> usize {
        self.find(place).unwrap_or_else(|| {
            self.places.push(place);
            self.places.len() - 1
        })
    }

    /// Draws an edge, if it fits: within reach, within the numbers, without a clash.
    pub fn join(&mut self, a: Place, b: Place) -> bool {
        let within = |p: Place| p.0.abs() <= REACH && p.1.abs() <= REACH;
        let new = [a, b].iter().filter(|&&p| self.find(p).is_none()).count();
        let fits = self.edges.len() < self.most && self.places.len() + new <= MAP_VERTICES;
        let segment = Segment::new(a, b);
        if a == b || !within(a) || !within(b) || !fits {
            return false;
        }
        if self.segments.iter().any(|s| clash(s, &segment)) {
            return false;
        }
        let ends = (self.vertex(a), self.vertex(b));
        self.edges.push(ends);
        self.segments.push(segment);
        true
    }

    /// Draws the edges from place to place; those that do not fit are left out.
    pub fn path(&mut self, places: &[Place]) {
        for pair in places.windows(2) {
            self.join(pair[0], pair[1]);
        }
    }

    /// Draws a closed path.
    pub fn ring(&mut self, places: &[Place]) {
        self.path(places);
        if let (Some(&first), Some(&last)) = (places.first(), places.last()) {
            self.join(last, first);
        }
    }

    /// Draws an upright rectangle.
    pub fn rectangle(&mut self, low: Place, high: Place) {
        self.ring(&[low, (high.0, low.1), high, (low.0, high.1)]);
    }

    /// The map: labels chosen face by face, vertices and edges numbered in any order, edges
    /// turned at random. One map in four keeps the order in which it was drawn.
    pub fn map(&self, random: &mut Random, palette: Palette) -> Map {
        let (vertices, edges) = (self.places.len(), self.edges.len());
        let tidy = random.once_in(4);
        let order = if tidy { (0..vertices).collect() } else { random.order(vertices) };
        let mut map = Map { vertices: vec![(0, 0); vertices], edges: Vec::with_capacity(edges) };
        for (&to, &(x, y)) in order.iter().zip(&self.places) {
            map.vertices[to] = (x as i16, y as i16);
        }
        for &(a, b) in &self.edges {
            let (from, to) = (order[a] as u16, order[b] as u16);
            let edge = Edge { from, to, left: 0, right: 0 };
            map.edges.push(if !tidy && random.once_in(2) { edge.turned() } else { edge });
        }
        if !tidy {
            random.shuffle(&mut map.edges);
        }
        label_faces(&mut map, |face| palette.label(face, random));
        map
    }

    /// The map with any palette.
    pub fn any_map(&self, random: &mut Random) -> Map {
        let palette = Palette::any(random);
        self.map(random, palette)
    }
}

/// Gives every face of a map a label; the outside has label 0.
pub fn label_faces(map: &mut Map, mut label: impl FnMut(usize) -> u16) {
    let graph = graph_of(map);
    let faces = faces(&graph, &graph.followers(&graph.fans()));
    let labels: Vec<u16> =
        (0..faces.outer.len()).map(|f| if f == 0 { 0 } else { label(f) }).collect();
    for (k, edge) in map.edges.iter_mut().enumerate() {
        edge.left = labels[faces.of(2 * k)];
        edge.right = labels[faces.of(2 * k + 1)];
    }
}
