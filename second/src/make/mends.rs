//! Files to be mended: maps with every mix of trifles, and the room that is lent for each.

use crate::limits::{MAP_EDGES, MAP_VERTICES, REACH};
use crate::make::{damage, valid_map};
use crate::map::{Edge, Map};
use crate::mend::mend;
use crate::random::Random;

/// A case: the lent file's bytes, the lent list's numbers, and the file.
pub struct Case {
    pub room: u16,
    pub list: u16,
    pub file: Vec<u8>,
}

/// n cases; case i has the seed `seed` + i.
pub fn make(seed: u64, n: u16) -> Vec<Case> {
    (0..n).map(|i| case(seed.wrapping_add(i as u64), i)).collect()
}

fn case(seed: u64, i: u16) -> Case {
    let mut random = Random::new(seed, "mend");
    let file = file(&mut random, i);
    let (mut room, mut list) = (3209, 1000);
    if let Ok(mended) = mend(&file) {
        let (long, many) = (mended.map.bytes().len(), 2 * mended.list.len());
        if i % 3 != 0 {
            room = (long + random.below(3)).saturating_sub(random.below(2));
            list = (many + random.below(3)).saturating_sub(random.below(2));
        }
    }
    Case { room: room as u16, list: list as u16, file }
}

/// A valid map with trifles, a damaged one, or vertices on few places: few of them, many, or as many
/// as there may be; some of these with a fault too.
fn file(random: &mut Random, i: u16) -> Vec<u8> {
    let mut map = match i % 8 {
        0 if i % 24 == 0 => crowded(random, MAP_VERTICES, MAP_EDGES),
        0 => crowded(random, 60, 80),
        1..=3 => {
            let (v, e) = (1 + random.below(12), random.below(20));
            crowded(random, v, e)
        }
        4 => return damage::damaged(&damage::KINDS[random.below(damage::KINDS.len())], random),
        _ => valid_map(random),
    };
    if i % 8 > 4 {
        trifles(random, &mut map);
    }
    if i % 16 == 2 {
        fault(random, &mut map);
    }
    map.bytes()
}

/// Vertices on few places and edges between any two of them, each the same from the start too.
fn crowded(random: &mut Random, vertices: usize, edges: usize) -> Map {
    let reach = random.range(1, 9);
    let mut place = || (random.range(-reach, reach) as i16, random.range(0, reach) as i16);
    let vertices: Vec<(i16, i16)> = (0..vertices).map(|_| place()).collect();
    let n = vertices.len();
    let edge = |random: &mut Random| Edge {
        from: random.below(n) as u16,
        to: random.below(n) as u16,
        left: random.below(3) as u16,
        right: random.below(65536) as u16,
    };
    Map { edges: (0..edges).map(|_| edge(random)).collect(), vertices }
}

/// A valid map with chains of doubled vertices, ends moved onto them, edges without length, edges
/// doubled either way and vertices without an edge, each kind now and then left out.
fn trifles(random: &mut Random, map: &mut Map) {
    let many = |random: &mut Random| if random.once_in(4) { 0 } else { random.below(7) };
    for _ in 0..many(random) {
        if let (Some(v), true) =
            (any(random, map.vertices.len()), map.vertices.len() < MAP_VERTICES)
        {
            let twin = map.vertices.len() as u16;
            map.vertices.push(map.vertices[v]);
            if let Some(k) = any(random, map.edges.len()) {
                let edge = &mut map.edges[k];
                let end = if random.once_in(2) { &mut edge.from } else { &mut edge.to };
                if map.vertices[*end as usize] == map.vertices[v] {
                    *end = twin;
                }
            }
        }
    }
    for _ in 0..many(random) {
        if map.edges.len() < MAP_EDGES {
            if let (Some(u), Some(k)) =
                (any(random, map.vertices.len()), any(random, map.edges.len()))
            {
                let twins = (0..map.vertices.len()).filter(|&v| map.vertices[v] == map.vertices[u]);
                let to = random.pick(&twins.collect::<Vec<_>>()) as u16;
                map.edges.insert(k, Edge { from: u as u16, to, left: 7, right: 8 });
            }
        }
    }
    for _ in 0..many(random) {
        if let (Some(k), true) = (any(random, map.edges.len()), map.edges.len() < MAP_EDGES) {
            let edge = map.edges[k];
            let again = if random.once_in(2) { edge.turned() } else { Edge { left: 9, ..edge } };
            map.edges.insert(random.below(map.edges.len() + 1), again);
        }
    }
    for _ in 0..many(random) {
        if map.vertices.len() < MAP_VERTICES {
            let mut c = || random.range(-REACH, REACH) as i16;
            map.vertices.push((c(), c()));
        }
    }
}

/// A coordinate out of range, an end that names no vertex, or both.
fn fault(random: &mut Random, map: &mut Map) {
    let both = random.below(3);
    if both != 1 {
        let v = random.below(map.vertices.len());
        map.vertices[v].1 = (REACH + 1) as i16;
    }
    if let (Some(k), true) = (any(random, map.edges.len()), both != 0) {
        map.edges[k].to = map.vertices.len() as u16;
    }
}

fn any(random: &mut Random, n: usize) -> Option<usize> {
    (n > 0).then(|| random.below(n))
}

/// A pack: the number of cases, then of each the two rooms, the length of the file, and the file.
pub fn bytes(cases: &[Case]) -> Vec<u8> {
    let mut out = (cases.len() as u16).to_le_bytes().to_vec();
    for case in cases {
        for number in [case.room, case.list, case.file.len() as u16] {
            out.extend(number.to_le_bytes());
        }
        out.extend(&case.file);
    }
    out
}

/// The cases of a pack, or none where the bytes are no pack.
pub fn parse(bytes: &[u8]) -> Option<Vec<Case>> {
    let mut rest = bytes;
    let mut take = |n: usize| {
        let (part, more) = rest.split_at_checked(n)?;
        rest = more;
        Some(part.to_vec())
    };
    let number = |part: &[u8]| u16::from_le_bytes([part[0], part[1]]);
    let count = number(&take(2)?);
    let mut cases = Vec::new();
    for _ in 0..count {
        let head = take(6)?;
        let file = take(number(&head[4..]) as usize)?;
        cases.push(Case { room: number(&head), list: number(&head[2..]), file });
    }
    rest.is_empty().then_some(cases)
}
