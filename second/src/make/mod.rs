//! Seeded inputs: drawings of many kinds, pairs and threes that go together, damaged files.

pub mod close;
pub mod damage;
pub mod drawing;
pub mod few;
pub mod meets;
pub mod melts;
pub mod mends;
pub mod names;
pub mod overlay_damage;
pub mod pairs;
pub mod places;
pub mod plain;
pub mod room;
pub mod sizes;
pub mod soundings;
pub mod table_damage;
pub mod telling;
pub mod tides;
pub mod touching;
pub mod triples;
pub mod wild;
pub mod years;

use crate::map::Map;
use crate::random::Random;

/// A kind of valid map: its name, what it is, how it is made.
pub struct Kind {
    pub name: &'static str,
    pub about: &'static str,
    pub make: fn(&mut Random) -> Map,
}

impl Kind {
    const fn new(name: &'static str, about: &'static str, make: fn(&mut Random) -> Map) -> Kind {
        Kind { name, about, make }
    }
}

/// All kinds of valid maps.
pub fn kinds() -> impl Iterator<Item = &'static Kind> {
    let small = plain::KINDS.iter().chain(few::KINDS).chain(telling::KINDS);
    small.chain(wild::KINDS).chain(sizes::KINDS)
}

/// The bytes of a map file of this kind, valid or damaged; `any` takes one of all kinds.
pub fn map_file(kind: &str, seed: u64) -> Option<Vec<u8>> {
    let mut random = Random::new(seed, kind);
    if kind == "any" {
        let names: Vec<&str> =
            kinds().map(|k| k.name).chain(damage::KINDS.iter().map(|k| k.name)).collect();
        let name = random.pick(&names);
        return map_file(name, random.bits());
    }
    if let Some(kind) = kinds().find(|k| k.name == kind) {
        return Some((kind.make)(&mut random).bytes());
    }
    let damage = damage::KINDS.iter().find(|k| k.name == kind)?;
    Some(damage::damaged(damage, &mut random))
}

/// A valid map of any kind that is not of full size.
pub fn valid_map(random: &mut Random) -> Map {
    let kinds: Vec<&Kind> = plain::KINDS.iter().chain(few::KINDS).chain(wild::KINDS).collect();
    (kinds[random.below(kinds.len())].make)(random)
}
