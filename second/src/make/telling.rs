//! Maps and pairs that tell a slip from the truth: inputs are made until one shows it.

use super::few::few;
use super::{damage, Kind};
use crate::check::fault;
use crate::literal::slip::{map_tells, maps_tell, Slip, OF_MAPS};
use crate::map::{decode, Map};
use crate::random::Random;

pub const KINDS: &[Kind] =
    &[Kind::new("telling", "a valid map on which some slip would show", valid)];

/// So many inputs are made before one is taken that does not show the slip.
const TRIES: usize = 1_000;

/// The first that shows it, or the last.
pub fn sought<T>(
    random: &mut Random,
    make: impl Fn(&mut Random) -> T,
    shows: impl Fn(&T) -> bool,
) -> T {
    for _ in 1..TRIES {
        let input = make(random);
        if shows(&input) {
            return input;
        }
    }
    make(random)
}

/// A map on which the slip shows in the check. Half of the maps that are tried are damaged, for
/// some slips show only in a wrong refusal.
pub fn telling_map(random: &mut Random, slip: Slip, make: fn(&mut Random) -> Map) -> Map {
    let any = |random: &mut Random| {
        let map = make(random);
        if random.once_in(2) {
            return map;
        }
        let kinds: Vec<_> = damage::KINDS.iter().filter(|kind| kind.rule >= 8).collect();
        let kind = kinds[random.below(kinds.len())];
        decode(&damage::damage_map(kind, random, map.clone())).unwrap_or(map)
    };
    sought(random, any, |map| map_tells(slip, map))
}

/// Valid maps on which the slip shows in the overlay.
pub fn telling_maps<const N: usize>(
    random: &mut Random,
    slip: Slip,
    make: fn(&mut Random) -> [Map; N],
) -> [Map; N] {
    sought(random, make, |maps| maps_tell(slip, &maps.each_ref()))
}

fn valid(random: &mut Random) -> Map {
    let slip = random.pick(OF_MAPS);
    sought(random, few, |map| fault(map).is_none() && map_tells(slip, map))
}
