//! Damaged map files, for every rule from 1 to 10.

mod bytes;
mod maps;

use super::valid_map;
use crate::check::check;
use crate::map::Map;
use crate::random::Random;

/// A kind of damage, and the rule that is broken unless an earlier one is broken as well.
pub struct Damage {
    pub name: &'static str,
    pub about: &'static str,
    pub rule: u16,
    how: How,
}

/// Damage is done to the map, or to the bytes of its file. The map is left as it is where the
/// damage cannot be done.
enum How {
    Map(fn(&mut Random, &mut Map)),
    Bytes(fn(&mut Random, &mut Vec<u8>)),
}

use How::{Bytes as B, Map as M};

const fn kind(name: &'static str, rule: u16, how: How, about: &'static str) -> Damage {
    Damage { name, about, rule, how }
}

pub const KINDS: &[Damage] = &[
    kind("short", 1, B(bytes::short), "under 9 bytes"),
    kind("mark", 1, B(bytes::mark), "another mark"),
    kind("version", 2, B(bytes::version), "another version"),
    kind("many-vertices", 3, B(bytes::many_vertices), "more than 200 vertices"),
    kind("many-edges", 3, B(bytes::many_edges), "more than 300 edges"),
    kind("cut", 4, B(bytes::cut), "bytes cut off"),
    kind("long", 4, B(bytes::long), "bytes added"),
    kind("miscount", 4, B(bytes::miscount), "a count changed"),
    kind("beyond", 5, M(maps::beyond), "a coordinate beyond its range"),
    kind("doubled", 6, M(maps::doubled), "a vertex on another"),
    kind("no-vertex", 7, M(maps::no_vertex), "an end that names no vertex"),
    kind("same-ends", 7, M(maps::same_ends), "an edge with one vertex at both ends"),
    kind("crossing", 8, M(maps::crossing), "two edges that cross"),
    kind("tee", 8, M(maps::tee), "an edge that ends within another"),
    kind("stretch", 8, M(maps::stretch), "two edges with a common stretch"),
    kind("copied", 8, M(maps::copied), "an edge twice"),
    kind("lonely", 9, M(maps::lonely), "a vertex without an edge"),
    kind("label", 10, M(maps::label), "one label changed"),
    kind("walk-label", 10, M(maps::walk_label), "the labels of a whole walk changed"),
    kind("outside", 10, M(maps::outside), "a hole walk with another label"),
    kind("several", 0, B(several), "two to four of these at once"),
    kind("bytes", 0, B(bytes::any_bytes), "some bytes changed at random"),
];

/// A damaged file of a kind: a valid map is damaged until the file is refused.
pub fn damaged(kind: &Damage, random: &mut Random) -> Vec<u8> {
    loop {
        let map = valid_map(random);
        let bytes = damage_map(kind, random, map);
        if check(&bytes).is_err() {
            return bytes;
        }
    }
}

/// A map, damaged; the damage may fail to break a rule.
pub fn damage_map(kind: &Damage, random: &mut Random, mut map: Map) -> Vec<u8> {
    match kind.how {
        How::Map(change) => {
            change(random, &mut map);
            map.bytes()
        }
        How::Bytes(change) => {
            let mut bytes = map.bytes();
            change(random, &mut bytes);
            bytes
        }
    }
}

/// A damaged file of any kind.
pub fn any(random: &mut Random) -> Vec<u8> {
    damaged(&KINDS[random.below(KINDS.len())], random)
}

/// A map that is refused by rule 8, and most often an edge clashes with several.
pub fn several_clashes(random: &mut Random) -> Vec<u8> {
    loop {
        let mut map = valid_map(random);
        maps::clashes(random, &mut map);
        let bytes = map.bytes();
        if check(&bytes).is_err_and(|refusal| refusal.number == 8) {
            return bytes;
        }
    }
}

/// Damage to the map first, then to its bytes.
fn several(random: &mut Random, bytes: &mut Vec<u8>) {
    let mut map = crate::map::decode(bytes).unwrap_or_default();
    for _ in 0..random.range(2, 4) {
        let kind = &KINDS[random.below(KINDS.len())];
        if let (How::Map(change), true) = (&kind.how, ends_named(&map)) {
            change(random, &mut map);
        }
    }
    *bytes = map.bytes();
    if random.once_in(4) {
        let kind = &KINDS[random.below(KINDS.len() - 2)];
        if let How::Bytes(change) = kind.how {
            change(random, bytes);
        }
    }
}

/// Can the map be drawn: do all ends name vertices, and differ in place?
fn ends_named(map: &Map) -> bool {
    let named = |v: u16| (v as usize) < map.vertices.len();
    map.edges.iter().all(|e| named(e.from) && named(e.to) && map.place(e.from) != map.place(e.to))
}
