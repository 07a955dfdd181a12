//! Cells melted together (02, Ask 12): what stays, what goes, and that every sounding keeps its triple.

use super::{files, holds, laws, orders, Found};
use crate::limits::{MAPS, NO_HALF_EDGE};
use crate::literal;
use crate::make::places::mixed;
use crate::map::Map;
use crate::melt::{melt, start};
use crate::overlay::{overlay, Overlay, Room};
use crate::point::Point;
use crate::soundings::{places, Slabs};
use crate::tables::Sources;
use crate::within::Ceilings;
use std::collections::{BTreeMap, HashMap};

/// Soundings for each sheet.
const SOUNDINGS: usize = 60;

/// The checks of one overlay and of what is left of it.
pub fn all(maps: &[Map; MAPS], laid: &Overlay) -> Found {
    let list = maps.each_ref();
    let done = melt(&list, &Room::FULL).map_err(|refusal| format!("melting: {refusal}"))?;
    let (tables, labels) = literal::melt::melted(&list, None);
    holds(tables == done.tables, || "melted tables differ from 02's words".into())?;
    holds(labels == done.labels, || "melted labels differ from 02's words".into())?;
    laws::all(&list, &done).map_err(|what| format!("melted: {what}"))?;
    files::all(&done).map_err(|what| format!("melted: {what}"))?;
    kept(laid, &done)?;
    joined(laid, &done)?;
    turned(maps, &done)?;
    let list = mixed(done.tables.edges() as u64, SOUNDINGS, maps);
    soundings(maps, [laid, &done], &places(&list)).map(|_| ())
}

/// The ends of each edge as points, with its sources and the labels on both sides.
fn edges(done: &Overlay) -> HashMap<[Point; 2], (Sources, [[u16; MAPS]; 2])> {
    let tables = &done.tables;
    let edge = |k: usize| {
        let sides = [2 * k, 2 * k + 1];
        (sides.map(|h| start(tables, h)), (tables.sources[k], sides.map(|h| done.labels[h])))
    };
    (0..tables.edges()).map(edge).collect()
}

/// "Each kept half-edge keeps its pair, no edge is left with the same pair on both sides"; every edge
/// that is gone had one; sources stay; every vertex has an edge.
fn kept(laid: &Overlay, done: &Overlay) -> Found {
    let (before, after) = (edges(laid), edges(done));
    for (ends, edge) in &after {
        holds(before.get(ends) == Some(edge), || format!("a kept edge is changed: {ends:?}"))?;
        holds(edge.1[0] != edge.1[1], || format!("an edge parts nothing: {ends:?}"))?;
    }
    for (ends, (_, sides)) in &before {
        let goes = sides[0] == sides[1];
        holds(goes != after.contains_key(ends), || format!("gone or kept: {ends:?}"))?;
    }
    let joins = |v: &crate::tables::VertexRow| v.out != NO_HALF_EDGE;
    holds(done.tables.vertices.iter().all(joins), || "a vertex without an edge".into())
}

/// The melted faces are the overlay's faces joined across the edges that go: one face for each, with
/// the triple that all of them have.
fn joined(laid: &Overlay, done: &Overlay) -> Found {
    let face = |h: usize| laid.tables.half_edges[h].face as usize;
    let mut group: Vec<usize> = (0..laid.tables.faces.len()).collect();
    let gone = |k: &usize| laid.labels[2 * k] == laid.labels[2 * k + 1];
    for k in (0..laid.tables.edges()).filter(gone) {
        let (a, b) = (group[face(2 * k)], group[face(2 * k + 1)]);
        group.iter_mut().filter(|g| **g == a.max(b)).for_each(|g| *g = a.min(b));
    }
    let triple = |f: usize| laid.tables.faces[f].labels;
    let one = (0..group.len()).all(|f| triple(f) == triple(group[f]));
    holds(one, || "faces of two triples joined".into())?;
    let groups: std::collections::BTreeSet<usize> = group.iter().copied().collect();
    holds(groups.len() == done.tables.faces.len(), || {
        format!("{} melted faces for {} joined ones", done.tables.faces.len(), groups.len())
    })?;
    let half_edges = |of: &Overlay| -> HashMap<[Point; 2], usize> {
        let ends = |h: usize| [start(&of.tables, h), start(&of.tables, h ^ 1)];
        (0..of.tables.half_edges.len()).map(|h| (ends(h), h)).collect()
    };
    let before = half_edges(laid);
    let mut named = BTreeMap::from([(0, 0)]);
    for (ends, h) in half_edges(done) {
        let (old, new) = (group[face(before[&ends])], done.tables.half_edges[h].face as usize);
        let known = *named.entry(old).or_insert(new);
        holds(known == new, || format!("half-edge {h} in face {new}, not {known}"))?;
        holds(triple(old) == done.tables.faces[new].labels, || format!("the triple of {new}"))?;
    }
    Ok(())
}

/// The maps in another order: the same, with sources and labels in that order.
fn turned(maps: &[Map; MAPS], done: &Overlay) -> Found {
    let order = [2, 0, 1];
    let list = order.map(|m| &maps[m]);
    let turned = melt(&list, &Room::FULL).map_err(|refusal| refusal.to_string())?;
    orders::exchanged(done, &turned, order).map_err(|what| format!("melted: {what}"))
}

/// "Every sounding looked up west in the melted tables has the pair that Ask 3 gives it": by a ray to
/// the north and by the look of 02's words, in the overlay and in what is left of it; Ask 3's by slabs
/// of each map. Says how many soundings lie in some cell.
pub fn soundings(
    maps: &[Map; MAPS],
    both: [&Overlay; 2],
    places: &[(i64, i64)],
) -> Result<usize, String> {
    let slabs = maps.each_ref().map(Slabs::new);
    let mut within = 0;
    for (of, name) in both.iter().zip(["the overlay", "the melted tables"]) {
        let tables = &of.tables;
        let ceilings = Ceilings::new(tables);
        let net = literal::overlay::net_of(&maps.each_ref(), tables);
        for &place in places {
            let want = slabs.each_ref().map(|map| map.label(place));
            let north = ceilings.labels(place);
            let west = literal::melt::labels_seen(&net, tables, place);
            let what =
                || format!("{place:?} in {name}: {north:?}, looking west {west:?}, {want:?}");
            holds([north, west] == [want; 2], what)?;
            within += (want != [0; MAPS]) as usize;
        }
    }
    Ok(within)
}

/// The checks of three maps by themselves.
pub fn of_maps(maps: &[Map; MAPS]) -> Found {
    let laid = overlay(&maps.each_ref(), &Room::FULL).map_err(|refusal| refusal.to_string())?;
    all(maps, &laid)
}
