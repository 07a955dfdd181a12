//! Cells melted together as 02's Ask 12 says it, over the overlay as document 01 says it.

use super::net::Net;
use super::overlay::{overlay, tables_of, Piece};
use super::slip::Slip;
use crate::map::Map;
use crate::point::Point;
use crate::tables::{Labels, Tables};

/// "From their overlay every edge with the same pair on both sides is dropped, then vertices left
/// without an edge, and vertices, edges, followers and faces are numbered afresh by 01's rules." Ask 13:
/// "Ask 12 compares triples".
pub fn melted(maps: &[&Map], slip: Option<Slip>) -> (Tables, Vec<Labels>) {
    let (laid, labels) = overlay(maps, None);
    let face = |h: usize| laid.half_edges[h].face;
    let compared = if slip == Some(Slip::PairsOnly) { 2 } else { 3 };
    let same_labels = |k: usize| labels[2 * k][..compared] == labels[2 * k + 1][..compared];
    let same_face = |k: usize| face(2 * k) == face(2 * k + 1);
    let dropped = |k: usize| match slip {
        Some(Slip::FencesOnly) => same_face(k),
        Some(Slip::FencesStay) => same_labels(k) && !same_face(k),
        _ => same_labels(k),
    };
    let origin = |h: usize| laid.half_edges[h].origin as usize;
    let kept: Vec<usize> = (0..laid.edges()).filter(|&k| !dropped(k)).collect();
    let has_edge = |v: &usize| kept.iter().any(|&k| origin(2 * k) == *v || origin(2 * k + 1) == *v);
    let stays = |v: &usize| has_edge(v) || slip == Some(Slip::LonelyStay);
    let vertices: Vec<usize> = (0..laid.vertices.len()).filter(stays).collect();
    let afresh = |v: usize| vertices.iter().filter(|&&w| w < v).count();
    let piece = |&k: &usize| ((afresh(origin(2 * k)), afresh(origin(2 * k + 1))), laid.sources[k]);
    let pieces: Vec<Piece> = kept.iter().map(piece).collect();
    let point = |&v: &usize| {
        let row = &laid.vertices[v];
        Point { x: row.x, y: row.y, d: row.d }
    };
    tables_of(maps, vertices.iter().map(point).collect(), &pieces, None)
}

/// "Every sounding looked up west in the melted tables": the labels of the face that is seen, in tables
/// with this net, by Ask 3's look.
pub fn labels_seen(net: &Net, tables: &Tables, place: (i64, i64)) -> Labels {
    let seen = net.seen(&Point::whole(place.0, place.1), Some((1, 0)));
    let face = seen.map_or(0, |h| tables.half_edges[h].face as usize);
    tables.faces[face].labels
}
