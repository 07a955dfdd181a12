//! The overlay of a list of maps: vertices, pieces, labels, faces, tables, room.

use crate::answer::Refusal;
use crate::check::check;
use crate::graph::{faces, Graph};
use crate::limits::*;
use crate::locate::{middle, Roofs};
use crate::map::Map;
use crate::point::Point;
use crate::segment::{shared, Segment, Shared};
use crate::tables::{FaceRow, HalfEdgeRow, Labels, Sources, Tables, VertexRow};
use std::collections::{BTreeMap, HashMap};

/// How many vertices, edges and faces there is room for.
#[derive(Clone, Copy, PartialEq, Eq, Debug)]
pub struct Room {
    pub vertices: usize,
    pub edges: usize,
    pub faces: usize,
}

impl Room {
    /// The room of tables that are as long as they can be of use.
    pub const FULL: Room = Room { vertices: VERTICES, edges: EDGES, faces: FACES };

    /// The room of lent tables with these numbers of rows.
    pub fn lent(vertices: usize, half_edges: usize, sources: usize, faces: usize) -> Room {
        Room {
            vertices: vertices.min(VERTICES),
            edges: (half_edges / 2).min(sources).min(EDGES),
            faces: faces.min(FACES),
        }
    }
}

/// An overlay: its tables, and the labels of each half-edge.
pub struct Overlay {
    pub tables: Tables,
    pub labels: Vec<Labels>,
}

/// The overlay of map files in the given room. Refusals of the maps come first, in their order.
pub fn overlay_files<F: AsRef<[u8]>>(files: &[F], room: &Room) -> Result<Overlay, Refusal> {
    let mut maps = Vec::new();
    for (number, file) in (1..).zip(files) {
        maps.push(check(file.as_ref()).map_err(|refusal| refusal.in_map(number))?);
    }
    overlay(&maps.iter().collect::<Vec<_>>(), room)
}

/// The overlay of checked maps, at most [`MAPS`] of them, in the given room. A map that is not there
/// leaves no source and the label 0.
pub fn overlay(maps: &[&Map], room: &Room) -> Result<Overlay, Refusal> {
    let cuts = cuts(maps);
    let mut points: Vec<Point> = cuts.iter().flatten().flatten().copied().collect();
    points.sort_unstable();
    points.dedup();
    if points.len() > room.vertices {
        return Err(Refusal::new(11, 1));
    }
    let pieces = pieces(maps, cuts, &points);
    if pieces.len() > room.edges {
        return Err(Refusal::new(11, 2));
    }
    let done = finish(maps, points, pieces);
    if done.tables.faces.len() > room.faces {
        return Err(Refusal::new(11, 3));
    }
    Ok(done)
}

/// For each edge of each map the points at which it is cut, its ends included: the ends of what it
/// has in common with each edge of each other map. A vertex of another map on it is the end of an
/// edge there. Where it has a stretch in common with another edge and a third edge meets both
/// within it, that one cuts it too, being of another map or having an end there.
fn cuts(maps: &[&Map]) -> Vec<Vec<Vec<Point>>> {
    let segments: Vec<Vec<Segment>> = maps.iter().map(|map| map.segments()).collect();
    let ends = |all: &Vec<Segment>| all.iter().map(|s| s.ends().to_vec()).collect();
    let mut cuts: Vec<Vec<Vec<Point>>> = segments.iter().map(ends).collect();
    for other in 1..maps.len() {
        for (m, i) in (0..other).flat_map(|m| (0..segments[m].len()).map(move |i| (m, i))) {
            for j in 0..segments[other].len() {
                let points = match shared(&segments[m][i], &segments[other][j]) {
                    Shared::Nothing => vec![],
                    Shared::At(p) => vec![p],
                    Shared::Stretch(p, q) => vec![p, q],
                };
                cuts[m][i].extend(&points);
                cuts[other][j].extend(&points);
            }
        }
    }
    cuts
}

/// An overlay edge on its way into the tables: where it comes from, and a direction from its
/// lower end to its upper one.
pub struct Piece {
    pub sources: Sources,
    pub way: (i64, i64),
}

/// The direction of edge k of a map from its lower end to its upper one.
pub fn upward(map: &Map, k: usize) -> (i64, i64) {
    let (x, y) = map.segment(k).way();
    let rises = y > 0 || (y == 0 && x > 0);
    if rises {
        (x, y)
    } else {
        (-x, -y)
    }
}

/// The pieces of all edges by lower and upper vertex number, each once.
fn pieces(
    maps: &[&Map],
    cuts: Vec<Vec<Vec<Point>>>,
    points: &[Point],
) -> BTreeMap<(usize, usize), Piece> {
    let number: HashMap<Point, usize> = points.iter().copied().zip(0..).collect();
    let mut pieces = BTreeMap::new();
    for (m, cuts) in cuts.into_iter().enumerate() {
        for (k, cuts) in cuts.into_iter().enumerate() {
            let mut on: Vec<usize> = cuts.iter().map(|p| number[p]).collect();
            on.sort_unstable();
            on.dedup();
            let way = upward(maps[m], k);
            for pair in on.windows(2) {
                let sources = [None; MAPS];
                let piece = pieces.entry((pair[0], pair[1])).or_insert(Piece { sources, way });
                piece.sources[m] = Some(k as u16);
            }
        }
    }
    pieces
}

/// The tables, once vertices and pieces are known.
pub fn finish(
    maps: &[&Map],
    points: Vec<Point>,
    pieces: BTreeMap<(usize, usize), Piece>,
) -> Overlay {
    let sources: Vec<Sources> = pieces.values().map(|piece| piece.sources).collect();
    let graph = Graph {
        points,
        ends: pieces.keys().copied().collect(),
        ways: pieces.values().map(|piece| piece.way).collect(),
    };
    let labels = labels(maps, &graph, &sources);
    let followers = graph.followers(&graph.fans());
    let faces = faces(&graph, &followers);
    let mut half_edges: Vec<HalfEdgeRow> = (0..followers.len())
        .map(|h| HalfEdgeRow {
            origin: graph.origin(h) as u16,
            twin: (h ^ 1) as u16,
            follower: followers[h] as u16,
            predecessor: 0,
            face: faces.of(h) as u16,
        })
        .collect();
    for (h, &follower) in followers.iter().enumerate() {
        half_edges[follower].predecessor = h as u16;
    }
    let face_row = |(outer, &holes): (&Option<usize>, &usize)| {
        let least = outer.map(|w| faces.walks[w][0]);
        let labels = least.map_or([0; MAPS], |h| labels[h]);
        let least = least.map_or(NO_HALF_EDGE, |h| h as u16);
        FaceRow { labels, least, holes: holes as u16 }
    };
    let vertex_row = |p: &Point| VertexRow { x: p.x, y: p.y, d: p.d, out: NO_HALF_EDGE };
    let mut tables = Tables {
        vertices: graph.points.iter().map(vertex_row).collect(),
        half_edges,
        sources,
        faces: faces.outer.iter().zip(&faces.holes).map(face_row).collect(),
    };
    tables.set_least_outgoing();
    Overlay { tables, labels }
}

/// The labels of each half-edge, map by map.
fn labels(maps: &[&Map], graph: &Graph, sources: &[Sources]) -> Vec<Labels> {
    let mut labels = vec![[0; MAPS]; 2 * sources.len()];
    for (m, map) in maps.iter().enumerate() {
        let roofs = Roofs::new(map);
        for (k, sources) in sources.iter().enumerate() {
            let (lower, upper) = graph.ends[k];
            let (left, right) = match sources[m] {
                Some(edge) => upward_labels(map, edge as usize),
                None => {
                    let spot = middle(&graph.points[lower], &graph.points[upper]);
                    let label = roofs.label(&spot);
                    (label, label)
                }
            };
            labels[2 * k][m] = left;
            labels[2 * k + 1][m] = right;
        }
    }
    labels
}

/// The labels left and right of a map's edge for one who goes from its lower end to its upper.
fn upward_labels(map: &Map, k: usize) -> (u16, u16) {
    let edge = map.edges[k];
    let [from, to] = map.segment(k).ends();
    if from < to {
        (edge.left, edge.right)
    } else {
        (edge.right, edge.left)
    }
}
