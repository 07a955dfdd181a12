//! Cells melted together (02, Ask 12) by another way than 02's words: an edge goes where the two faces
//! beside it have one triple, and of the edges that stay, as straight edges between points, the tables
//! are made as if nothing had been numbered before. Labels are found anew in the maps.

use crate::answer::Refusal;
use crate::check::check;
use crate::map::Map;
use crate::overlay::{finish, overlay, upward, Overlay, Piece, Room};
use crate::point::Point;
use crate::tables::{Sources, Tables};
use std::collections::{BTreeMap, BTreeSet, HashMap};

/// The melted tables of map files in the given room, or the overlay's refusal.
pub fn melt_files<F: AsRef<[u8]>>(files: &[F], room: &Room) -> Result<Overlay, Refusal> {
    let mut maps = Vec::new();
    for (number, file) in (1..).zip(files) {
        maps.push(check(file.as_ref()).map_err(|refusal| refusal.in_map(number))?);
    }
    melt(&maps.iter().collect::<Vec<_>>(), room)
}

/// The melted tables of checked maps. The room is judged on the overlay.
pub fn melt(maps: &[&Map], room: &Room) -> Result<Overlay, Refusal> {
    let laid = overlay(maps, room)?.tables;
    let kept = (0..laid.edges()).filter(|&k| parts(&laid, k));
    Ok(rebuilt(maps, kept.map(|k| line(&laid, k)).collect()))
}

/// Have the two faces beside edge k different triples?
fn parts(tables: &Tables, k: usize) -> bool {
    let triple = |h: usize| tables.faces[tables.half_edges[h].face as usize].labels;
    triple(2 * k) != triple(2 * k + 1)
}

/// The point of the vertex from which half-edge h starts.
pub fn start(tables: &Tables, h: usize) -> Point {
    let row = &tables.vertices[tables.half_edges[h].origin as usize];
    Point { x: row.x, y: row.y, d: row.d }
}

/// An edge without numbers: its two ends, and the edge in each map that runs along it.
type Line = ([Point; 2], Sources);

fn line(tables: &Tables, k: usize) -> Line {
    ([start(tables, 2 * k), start(tables, 2 * k + 1)], tables.sources[k])
}

/// The tables of some edges, numbered by 01's rules.
fn rebuilt(maps: &[&Map], lines: Vec<Line>) -> Overlay {
    let points: BTreeSet<Point> = lines.iter().flat_map(|(ends, _)| *ends).collect();
    let number: HashMap<Point, usize> = points.iter().copied().zip(0..).collect();
    let mut pieces = BTreeMap::new();
    for ([a, b], sources) in lines {
        let way = along(maps, &sources);
        pieces.insert((number[&a.min(b)], number[&a.max(b)]), Piece { sources, way });
    }
    finish(maps, points.into_iter().collect(), pieces)
}

/// The upward direction of an edge: that of a map's edge along which it runs.
fn along(maps: &[&Map], sources: &Sources) -> (i64, i64) {
    let mut known = maps.iter().zip(sources).filter_map(|(map, k)| k.map(|k| (map, k)));
    let (map, k) = known.next().expect("a piece comes from a map");
    upward(map, k as usize)
}
