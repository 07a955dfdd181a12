//! Pairs of maps whose overlay just fits the room, or just does not.

use super::drawing::Drawing;
use super::pairs::two;
use super::sizes::{comb, filler, scale, thick};
use crate::limits::{EDGES, MAP_EDGES, VERTICES};
use crate::map::Map;
use crate::overlay::{overlay, Room};
use crate::random::Random;

/// Vertices and edges of the overlay of some drawings, with no regard to the room.
pub fn size(drawings: &[&Drawing]) -> (usize, usize) {
    let mut random = Random::new(0, "size");
    let maps: Vec<Map> = drawings.iter().map(|d| d.any_map(&mut random)).collect();
    let room = Room { vertices: usize::MAX, edges: usize::MAX, faces: usize::MAX };
    let done = overlay(&maps.iter().collect::<Vec<_>>(), &room);
    let tables = done.expect("there is room for everything").tables;
    (tables.vertices.len(), tables.edges())
}

/// Two combs, and a path that fills up to the wanted number of vertices.
pub fn thousand(random: &mut Random) -> [Vec<u8>; 2] {
    let scale = scale(random);
    let (first, mut second) = loop {
        let (m, n) = (random.range(26, 36) as usize, random.range(26, 36) as usize);
        let (first, second) = (comb(random, m, true, scale), comb(random, n, false, scale));
        if (850..990).contains(&size(&[&first, &second]).0) {
            break (first, second);
        }
    };
    let wanted = VERTICES + random.below(5) - 2;
    let missing = wanted - size(&[&first, &second]).0;
    filler(&mut second, random, missing, scale);
    two(random, &first, &second)
}

/// Two triangulations, and a path that fills up to the wanted number of edges.
pub fn edges_2000(random: &mut Random) -> [Vec<u8>; 2] {
    let wanted = EDGES + random.below(5) - 2;
    let scale = scale(random);
    let (first, mut second) = loop {
        let n = random.range(97, 99) as usize;
        let (first, second) = (thick(random, n, scale), thick(random, n, scale));
        let (vertices, edges) = size(&[&first, &second]);
        let spare = (MAP_EDGES - second.edges()).min(VERTICES.saturating_sub(vertices + 1));
        if edges < wanted && wanted - edges <= spare {
            break (first, second);
        }
    };
    let missing = wanted - size(&[&first, &second]).1;
    filler(&mut second, random, missing + 1, scale);
    two(random, &first, &second)
}

pub fn over_vertices(random: &mut Random) -> [Vec<u8>; 2] {
    let (m, n) = (random.range(33, 199) as usize, random.range(33, 199) as usize);
    let scale = scale(random);
    let (first, second) = (comb(random, m, true, scale), comb(random, n, false, scale));
    two(random, &first, &second)
}

pub fn over_edges(random: &mut Random) -> [Vec<u8>; 2] {
    let scale = scale(random);
    loop {
        let n = random.range(99, 106) as usize;
        let (first, second) = (thick(random, n, scale), thick(random, n, scale));
        let (vertices, edges) = size(&[&first, &second]);
        if vertices <= VERTICES && edges > EDGES {
            return two(random, &first, &second);
        }
    }
}
