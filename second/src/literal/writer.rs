//! The overlay file's writer as document 01 says it: its refusals.

use crate::answer::Refusal;
use crate::limits::{EDGES, FACES, VERTICES};
use crate::ovfile::Counts;
use crate::tables::Tables;

/// The refusal of the writer, if any: 3, 5, 21, then 11 with place 4.
pub fn fault(tables: &Tables, counts: Counts, length: usize) -> Option<Refusal> {
    let Counts { vertices: v, edges: e, faces: f } = counts;
    let t = tables;
    let short = v > t.vertices.len() || f > t.faces.len() || e > t.sources.len();
    if v > VERTICES || e > EDGES || f > FACES || short || 2 * e > t.half_edges.len() {
        return Some(Refusal::new(3, 0));
    }
    if let Some(v) = (0..v).find(|&v| !vertex_good(t, e, v)) {
        return Some(Refusal::new(5, v));
    }
    if let Some(k) = (0..e).find(|&k| !edge_good(t, v, e, f, k)) {
        return Some(Refusal::new(21, k));
    }
    (length < 11 + 16 * v + 18 * e + 10 * f).then_some(Refusal::new(11, 4))
}

/// X and Y fit six bytes in two's complement, D fits four without a sign, and the outgoing entry
/// is "the least half-edge with that origin (65,535 if none)".
fn vertex_good(t: &Tables, e: usize, v: usize) -> bool {
    let row = t.vertices[v];
    let six = |c: i64| (-140_737_488_355_328..=140_737_488_355_327).contains(&c);
    let outgoing: Vec<usize> =
        (0..2 * e).filter(|&h| t.half_edges[h].origin as usize == v).collect();
    let least = outgoing.iter().min().copied().unwrap_or(65_535);
    six(row.x) && six(row.y) && (0..=4_294_967_295).contains(&row.d) && row.out as usize == least
}

/// The record is sound, no source is 65,535, twins and predecessors are as they should be.
fn edge_good(t: &Tables, v: usize, e: usize, f: usize, k: usize) -> bool {
    let origin = |h: usize| t.half_edges[h].origin as usize;
    let follower = |h: usize| t.half_edges[h].follower as usize;
    let (lower, upper) = (origin(2 * k), origin(2 * k + 1));
    let half_edge_good = |h: usize| {
        let (row, next) = (t.half_edges[h], follower(h));
        let before = row.predecessor as usize;
        (row.face as usize) < f
            && next < 2 * e
            && origin(next) == origin(h ^ 1)
            && (0..h).all(|g| follower(g) != next)
            && row.twin as usize == h ^ 1
            && before < 2 * e
            && follower(before) == h
    };
    let sources = t.sources[k];
    lower < upper
        && upper < v
        && sources != [None, None, None]
        && !sources.contains(&Some(65_535))
        && half_edge_good(2 * k)
        && half_edge_good(2 * k + 1)
}
