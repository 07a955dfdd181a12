//! Damage to a map: rules 5 to 10.

use crate::check::graph_of;
use crate::graph::faces;
use crate::limits::{MAP_EDGES, MAP_VERTICES, REACH};
use crate::make::drawing::Place;
use crate::make::plain::place;
use crate::map::{Edge, Map};
use crate::random::Random;
use crate::segment::{clash, shared, Segment, Shared};

pub fn beyond(random: &mut Random, map: &mut Map) {
    let vertices = map.vertices.len();
    for _ in 0..random.range(1, 2).min(vertices as i64) {
        let any = random.range(REACH + 1, 32_767) as i16;
        let next = REACH as i16 + 1;
        let far = random.pick(&[next, -next, i16::MAX, i16::MIN, any, -any]);
        let vertex = &mut map.vertices[random.below(vertices)];
        match random.below(2) {
            0 => vertex.0 = far,
            _ => vertex.1 = far,
        }
    }
}

pub fn doubled(random: &mut Random, map: &mut Map) {
    let vertices = map.vertices.len();
    for _ in 0..random.range(1, 2).min(vertices as i64) {
        let (a, b) = (random.below(vertices), random.below(vertices));
        map.vertices[a] = map.vertices[b];
    }
}

pub fn no_vertex(random: &mut Random, map: &mut Map) {
    let (vertices, edges) = (map.vertices.len() as u16, map.edges.len());
    for _ in 0..random.range(1, 2).min(edges as i64) {
        let any = random.range(vertices as i64, 65_535) as u16;
        let name = random.pick(&[vertices, vertices + 1, 65_535, any]);
        let edge = &mut map.edges[random.below(edges)];
        match random.below(2) {
            0 => edge.from = name,
            _ => edge.to = name,
        }
    }
}

pub fn same_ends(random: &mut Random, map: &mut Map) {
    if !map.edges.is_empty() {
        let edges = map.edges.len();
        let edge = &mut map.edges[random.below(edges)];
        edge.to = edge.from;
    }
}

/// The number of the vertex at a place; a new vertex gets any number.
fn vertex_at(random: &mut Random, map: &mut Map, p: Place) -> u16 {
    let place = (p.0 as i16, p.1 as i16);
    if let Some(v) = map.vertices.iter().position(|&w| w == place) {
        return v as u16;
    }
    let new = random.below(map.vertices.len() + 1);
    map.vertices.insert(new, place);
    for edge in &mut map.edges {
        edge.from += (edge.from as usize >= new) as u16;
        edge.to += (edge.to as usize >= new) as u16;
    }
    new as u16
}

/// Puts in an edge with the labels of another, under any number.
fn put_edge(random: &mut Random, map: &mut Map, a: Place, b: Place) {
    if map.vertices.len() + 2 > MAP_VERTICES || map.edges.len() == MAP_EDGES || a == b {
        return;
    }
    vertex_at(random, map, a);
    let to = vertex_at(random, map, b);
    let from = vertex_at(random, map, a);
    let like = map.edges[random.below(map.edges.len())];
    let at = random.below(map.edges.len() + 1);
    map.edges.insert(at, Edge { from, to, ..like });
}

/// A place at a vertex, or anywhere near one.
fn near(random: &mut Random, map: &Map) -> Place {
    let (x, y) = map.place(random.below(map.vertices.len()) as u16);
    let (dx, dy) = if random.once_in(2) { (0, 0) } else { place(random, 12) };
    ((x + dx).clamp(-REACH, REACH), (y + dy).clamp(-REACH, REACH))
}

/// Puts in an edge that has the wanted clash with some edge, if one is found.
fn put_clash(random: &mut Random, map: &mut Map, wanted: fn(&Segment, &Segment) -> bool) {
    if map.edges.is_empty() {
        return;
    }
    let segments = map.segments();
    for _ in 0..200 {
        let (a, b) = (near(random, map), near(random, map));
        let new = Segment::new(a, b);
        if a != b && segments.iter().any(|s| wanted(s, &new)) {
            return put_edge(random, map, a, b);
        }
    }
}

pub fn crossing(random: &mut Random, map: &mut Map) {
    put_clash(random, map, |s, t| match shared(s, t) {
        Shared::At(p) => !s.ends().contains(&p) && !t.ends().contains(&p),
        _ => false,
    });
}

/// Several edges put in, each with a clash.
pub fn clashes(random: &mut Random, map: &mut Map) {
    for _ in 0..random.range(2, 6) {
        put_clash(random, map, clash);
    }
}

pub fn tee(random: &mut Random, map: &mut Map) {
    put_clash(random, map, |s, t| clash(s, t) && !crosses_within(s, t));
}

/// Do two edges cross inside both, or share a stretch?
fn crosses_within(s: &Segment, t: &Segment) -> bool {
    match shared(s, t) {
        Shared::At(p) => !s.ends().contains(&p) && !t.ends().contains(&p),
        Shared::Stretch(..) => true,
        Shared::Nothing => false,
    }
}

/// An edge along another one: longer, shorter or moved.
pub fn stretch(random: &mut Random, map: &mut Map) {
    if map.edges.is_empty() {
        return;
    }
    let s = map.segment(random.below(map.edges.len()));
    let (dx, dy) = s.way();
    let steps = crate::point::common(dx, dy);
    let at = |i: i64| (s.ax + dx / steps * i, s.ay + dy / steps * i);
    let (i, j) = (random.range(-1, steps - 1), random.range(1, steps + 1));
    let within = |p: Place| p.0.abs() <= REACH && p.1.abs() <= REACH;
    if i < j && within(at(i)) && within(at(j)) {
        let (a, b) = if random.once_in(2) { (at(i), at(j)) } else { (at(j), at(i)) };
        put_edge(random, map, a, b);
    }
}

pub fn copied(random: &mut Random, map: &mut Map) {
    if map.edges.is_empty() || map.edges.len() == MAP_EDGES {
        return;
    }
    let edge = map.edges[random.below(map.edges.len())];
    let at = random.below(map.edges.len() + 1);
    map.edges.insert(at, if random.once_in(2) { edge.turned() } else { edge });
}

pub fn lonely(random: &mut Random, map: &mut Map) {
    if random.once_in(8) {
        map.edges.clear();
    }
    for _ in 0..random.range(1, 2) {
        if map.vertices.len() < MAP_VERTICES {
            let p = place(random, 60);
            vertex_at(random, map, p);
        }
    }
}

/// Another label, mostly a small one.
fn other_label(random: &mut Random, old: u16) -> u16 {
    loop {
        let any = random.bits() as u16;
        let new = random.pick(&[0, 1, 2, old.wrapping_add(1), any]);
        if new != old {
            return new;
        }
    }
}

fn set_label(map: &mut Map, h: usize, label: u16) {
    let edge = &mut map.edges[h / 2];
    *[&mut edge.left, &mut edge.right][h % 2] = label;
}

pub fn label(random: &mut Random, map: &mut Map) {
    if map.edges.is_empty() {
        return;
    }
    for _ in 0..random.range(1, 2) {
        let h = random.below(2 * map.edges.len());
        let new = other_label(random, map.label(h));
        set_label(map, h, new);
    }
}

/// Gives all half-edges of a walk another label.
fn relabel(random: &mut Random, map: &mut Map, only_holes: bool) {
    let graph = graph_of(map);
    let faces = faces(&graph, &graph.followers(&graph.fans()));
    let walks: Vec<usize> =
        (0..faces.walks.len()).filter(|&w| faces.hole[w] || !only_holes).collect();
    if !walks.is_empty() {
        let walk = &faces.walks[random.pick(&walks)];
        let new = other_label(random, map.label(walk[0]));
        walk.iter().for_each(|&h| set_label(map, h, new));
    }
}

pub fn walk_label(random: &mut Random, map: &mut Map) {
    relabel(random, map, false);
}

pub fn outside(random: &mut Random, map: &mut Map) {
    relabel(random, map, true);
}
